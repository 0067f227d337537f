//! The lent edge table.

/// The sides of cells at one resolution, the *target*, at which outlines are drawn.
///
/// A row has the number of a directed edge (H3, mode 2), the row of the same side seen from the other cell, and what the side adds to the
/// area of a ring (steradians). There are 2 to 65,536 rows, strictly ascending by edge number. The table is checked by every call, which
/// refuses a bad one by [`Refusal::BadTable`](crate::Refusal::BadTable).
#[derive(Debug, Clone, PartialEq)]
pub struct EdgeTable {
    pub(crate) edges: Vec<u64>,
    pub(crate) reverse: Vec<u32>,
    pub(crate) area: Vec<f64>,
}

impl EdgeTable {
    /// A table of three columns, with one entry for each row.
    #[must_use]
    pub const fn new(edges: Vec<u64>, reverse: Vec<u32>, area: Vec<f64>) -> Self {
        Self { edges, reverse, area }
    }

    /// How many rows there are.
    #[must_use]
    pub const fn rows(&self) -> usize {
        self.edges.len()
    }

    /// The edge numbers, row by row.
    #[must_use]
    pub fn edges(&self) -> &[u64] {
        &self.edges
    }

    /// The rows of the reverses.
    #[must_use]
    pub fn reverse(&self) -> &[u32] {
        &self.reverse
    }

    /// The area terms.
    #[must_use]
    pub fn area(&self) -> &[f64] {
        &self.area
    }
}
