//! "The edge table".
use super::{
    Verdict,
    cells::{is_edge, resolution},
    refuse, refuse_any, walk,
};

#[derive(Clone, Debug, PartialEq)]
pub struct Table {
    pub edges: Vec<u64>,
    pub reverse: Vec<u32>,
    pub area: Vec<f64>,
}

impl Table {
    pub fn rows(&self) -> usize {
        self.edges.len()
    }

    /// The resolution of a table that passed the check.
    pub fn target(&self) -> u32 {
        resolution(self.edges[0])
    }

    pub fn reverse_of(&self, row: usize) -> usize {
        self.reverse[row] as usize
    }

    pub fn row(&self, edge: u64) -> Option<usize> {
        self.edges.binary_search(&edge).ok()
    }

    /// The rows of a cell's outline; none for an edge that is not there.
    pub fn outline(&self, cell: u64) -> Vec<Option<usize>> {
        walk::outline(cell, self.target()).into_iter().map(|edge| self.row(edge)).collect()
    }

    pub fn holds_outline(&self, cell: u64) -> bool {
        self.outline(cell).iter().all(Option::is_some)
    }

    /// Refusal 1.
    pub fn check(&self) -> Verdict {
        if !(2..=65_536).contains(&self.rows()) {
            return refuse(1, 0);
        }
        if self.edges.iter().any(|e| resolution(*e) != resolution(self.edges[0])) {
            return refuse(1, 0);
        }
        refuse_any(1, (0..self.rows()).find(|row| self.is_bad(*row)))
    }

    fn is_bad(&self, row: usize) -> bool {
        let out_of_order = row > 0 && self.edges[row - 1] >= self.edges[row];
        let reverse = self.reverse_of(row);
        let names_back = reverse < self.rows() && reverse != row && self.reverse_of(reverse) == row;
        !is_edge(self.edges[row]) || out_of_order || !names_back || !self.area[row].is_finite()
    }
}
