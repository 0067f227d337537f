//! Refusals 2, 3, 4, 3 and 8: a list of cells, and one cell against the held ones.
use super::{
    Verdict,
    cells::{is_cell, lies_under, resolution},
    refuse, refuse_any,
};

/// The mode that a state keeps.
#[derive(Clone, Copy, Debug, PartialEq, Eq)]
pub enum Kept {
    Even,
    Mixed,
}

impl Kept {
    /// Of a call's mode: 0 even, 1 mixed, 2 names none and means even.
    pub fn of(mode: u64) -> Option<Self> {
        match mode {
            0 | 2 => Some(Self::Even),
            1 => Some(Self::Mixed),
            _ => None,
        }
    }

    fn takes(self, cell: u64, target: u32) -> bool {
        match self {
            Self::Even => resolution(cell) == target,
            Self::Mixed => resolution(cell) <= target,
        }
    }
}

/// The list's own refusals, 2, 3, 4 and 3, each with the lowest index.
pub fn check(kept: Kept, target: u32, cells: &[u64]) -> Verdict {
    let is_under_another = |i: &usize| cells.iter().any(|other| lies_under(cells[*i], *other));
    let mut indexes = 0..cells.len();
    refuse_any(2, indexes.clone().find(|i| !is_cell(cells[*i])))?;
    refuse_any(3, indexes.clone().find(|i| cells[..*i].contains(&cells[*i])))?;
    refuse_any(4, indexes.clone().find(|i| !kept.takes(cells[*i], target)))?;
    refuse_any(3, indexes.find(|i| kept == Kept::Mixed && is_under_another(i)))
}

pub fn check_list(kept: Kept, target: u32, places: usize, cells: &[u64]) -> Verdict {
    check(kept, target, cells)?;
    if cells.len() > places { refuse(8, 0) } else { Ok(()) }
}

/// An offer is the list of the held cells with one more, of which the held ones pass.
pub fn check_offer(kept: Kept, target: u32, places: usize, held: &[u64], cell: u64) -> Verdict {
    let mut list = held.to_vec();
    list.push(cell);
    check_list(kept, target, places, &list)
}
