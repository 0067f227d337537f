//! The private state of the Rust's pool: arc_set.rs, unchanged, included into a module that can see its private fields. The oracle's
//! stand-ins serve it; areas are left out, since no ring is built here.
#![cfg(h3o)]

pub use oracle::{CellIndex, DirectedEdgeIndex, Resolution, error};

pub mod math {
    pub trait Coord2d {
        fn xy(self) -> (f64, f64);
    }

    pub fn linear_ring_area<C>(_: &[C]) -> f64 {
        0.
    }
}

/// What `ArcSolvent` holds after some cells.
pub struct Pool {
    /// Slots that were ever taken.
    pub slots: usize,
    /// Slots that the next cell can take again.
    pub free: usize,
    pub parents: Vec<usize>,
    pub ranks: Vec<usize>,
}

/// A slot of `ArcSolvent` when the rings are built.
pub struct Arc {
    pub edge: u64,
    /// The slot of the edge that follows.
    pub next: usize,
    pub removed: bool,
}

#[allow(dead_code)]
mod arc_set {
    include!(env!("ARC_SET"));

    /// The solvent after these cells in mixed mode, added in this order.
    fn solvent(cells: &[CellIndex], target: Resolution) -> ArcSolvent {
        let mut solvent = ArcSolvent::new(cells.len(), 6);
        for cell in cells {
            let outline = cell.outline(target);
            let count = outline.len();
            solvent.add_edges(outline, count);
        }
        solvent
    }

    pub fn pool(cells: &[CellIndex], target: Resolution) -> crate::Pool {
        let solvent = solvent(cells, target);
        crate::Pool {
            slots: solvent.arcs.len(),
            free: solvent.freelist.len(),
            parents: solvent.partitions.parent,
            ranks: solvent.partitions.rank,
        }
    }

    pub fn arcs(cells: &[CellIndex], target: Resolution) -> Vec<crate::Arc> {
        let mut solvent = solvent(cells, target);
        solvent.finalize();
        let arc = |arc: &Arc| crate::Arc { edge: arc.id.0, next: arc.next_idx.get(), removed: arc.is_removed() };
        solvent.arcs.iter().map(arc).collect()
    }
}

/// The pool after these cells, taken in this order, on a table that is lent to the stand-ins.
pub fn pool(table: &oracle::table::Table, cells: &[u64], target: u32) -> Option<Pool> {
    lent(table, cells, target, arc_set::pool)
}

/// The slots after the same calls.
pub fn arcs(table: &oracle::table::Table, cells: &[u64], target: u32) -> Option<Vec<Arc>> {
    lent(table, cells, target, arc_set::arcs)
}

fn lent<R>(
    table: &oracle::table::Table,
    cells: &[u64],
    target: u32,
    body: fn(&[CellIndex], Resolution) -> R,
) -> Option<R> {
    let target = Resolution::new(u8::try_from(target).ok()?)?;
    let cells = cells.iter().map(|cell| CellIndex(*cell)).collect::<Vec<_>>();
    Some(oracle::table::lend(table, || body(&cells, target)))
}
