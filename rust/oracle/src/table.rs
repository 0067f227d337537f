//! The edge table that is lent to the stand-ins: edge numbers ascending, reverse rows, one area term a row.
use ahash::{HashMap, HashMapExt as _};
use std::{cell::Cell, ptr};

/// Latitude of the vertices that stand for rows; no real latitude comes near.
pub const ROW_MARK: f64 = 4096.;

pub struct Table {
    pub edges: Vec<u64>,
    pub reverse: Vec<u32>,
    pub area: Vec<f64>,
    rows: HashMap<u64, u32>,
}

impl Table {
    /// None where the columns disagree in length or a reverse row is out of range.
    pub fn new(edges: Vec<u64>, reverse: Vec<u32>, area: Vec<f64>) -> Option<Self> {
        let n = edges.len();
        if reverse.len() != n || area.len() != n || reverse.iter().any(|r| *r as usize >= n) {
            return None;
        }
        let mut rows = HashMap::with_capacity(n);
        for (row, edge) in edges.iter().enumerate() {
            rows.insert(*edge, row as u32);
        }
        Some(Self { edges, reverse, area, rows })
    }

    #[inline]
    pub fn row(&self, edge: u64) -> Option<usize> {
        self.rows.get(&edge).map(|row| *row as usize)
    }

    #[inline]
    pub(crate) fn row_or_panic(&self, edge: u64) -> usize {
        self.row(edge).unwrap_or_else(|| missing(edge))
    }
}

#[cold]
fn missing(edge: u64) -> ! {
    panic!("edge {edge:016x} is not in the table")
}

thread_local! {
    static LENT: Cell<*const Table> = const { Cell::new(ptr::null()) };
}

/// Runs `body` with `table` lent to the stand-ins of this thread.
pub fn lend<R>(table: &Table, body: impl FnOnce() -> R) -> R {
    struct Back(*const Table);
    impl Drop for Back {
        fn drop(&mut self) {
            LENT.set(self.0);
        }
    }
    let _back = Back(LENT.replace(table));
    body()
}

#[inline]
pub(crate) fn with<R>(body: impl FnOnce(&Table) -> R) -> R {
    let lent = LENT.get();
    assert!(!lent.is_null(), "no table is lent");
    // SAFETY: only `lend` sets it, to a reference that outlives its body, and takes it back afterwards.
    body(unsafe { &*lent })
}
