//! The numbered refusals.
use std::{error::Error, fmt};

/// Why a call did nothing, with the index that says where.
///
/// The index of [`Zone::offer`](crate::Zone::offer) is the number of cells already held, but for a held cell that lies under the new
/// one, which is named by its place.
#[derive(Debug, Clone, Copy, PartialEq, Eq, Hash)]
#[non_exhaustive]
pub enum Refusal {
    /// 1: the table breaks a rule.
    BadTable {
        /// The lowest bad row; 0 for a bad row count or edges of several resolutions.
        row: usize,
    },
    /// 2: a number that is no valid H3 cell.
    InvalidCell {
        /// The lowest such cell.
        index: usize,
    },
    /// 3: a cell that is there already, or, in mixed mode, lies under another.
    DuplicateInput {
        /// The second of two equal cells, or the cell under another.
        index: usize,
    },
    /// 4: a cell finer than the table's resolution, or in even mode of any other.
    UnsupportedResolution {
        /// The lowest such cell.
        index: usize,
    },
    /// 5: a side of the cell isn't in the table.
    EdgeNotInTable {
        /// The cell.
        index: usize,
    },
    /// 6: the outline of the cell names an edge twice.
    EdgeTwice {
        /// The cell.
        index: usize,
    },
    /// 7: too few free slots for the outline of the cell.
    PoolFull {
        /// The cell.
        index: usize,
    },
    /// 8: more cells than the capacity.
    TooManyCells,
    /// 9: the state breaks a rule: something else than the calls has changed it, or it belongs to another table.
    BrokenState,
    /// 10: slices that disagree in length, a capacity out of its range, or an output too short.
    BadLengths,
}

impl Refusal {
    /// The result of a call: 0, or number · 2^32 + index.
    pub(crate) const fn check(result: u64) -> Result<(), Self> {
        let index = (result & 0xffff_ffff) as usize;
        Err(match result >> 32 {
            0 => return Ok(()),
            1 => Self::BadTable { row: index },
            2 => Self::InvalidCell { index },
            3 => Self::DuplicateInput { index },
            4 => Self::UnsupportedResolution { index },
            5 => Self::EdgeNotInTable { index },
            6 => Self::EdgeTwice { index },
            7 => Self::PoolFull { index },
            8 => Self::TooManyCells,
            9 => Self::BrokenState,
            _ => Self::BadLengths,
        })
    }

    /// The number of the rules, 1 to 10.
    #[must_use]
    pub const fn number(self) -> u32 {
        match self {
            Self::BadTable { .. } => 1,
            Self::InvalidCell { .. } => 2,
            Self::DuplicateInput { .. } => 3,
            Self::UnsupportedResolution { .. } => 4,
            Self::EdgeNotInTable { .. } => 5,
            Self::EdgeTwice { .. } => 6,
            Self::PoolFull { .. } => 7,
            Self::TooManyCells => 8,
            Self::BrokenState => 9,
            Self::BadLengths => 10,
        }
    }

    /// The index of the row or cell, where there is one. 4,294,967,295 stands for every later one too.
    #[must_use]
    pub const fn index(self) -> Option<usize> {
        match self {
            Self::BadTable { row: index }
            | Self::InvalidCell { index }
            | Self::DuplicateInput { index }
            | Self::UnsupportedResolution { index }
            | Self::EdgeNotInTable { index }
            | Self::EdgeTwice { index }
            | Self::PoolFull { index } => Some(index),
            Self::TooManyCells | Self::BrokenState | Self::BadLengths => None,
        }
    }
}

impl fmt::Display for Refusal {
    fn fmt(&self, f: &mut fmt::Formatter<'_>) -> fmt::Result {
        match *self {
            Self::BadTable { row } => write!(
                f,
                "row {row} of the edge table is bad: give 2 to 65,536 valid edges of one resolution, strictly ascending, each with the row of its reverse and a finite area term"
            ),
            Self::InvalidCell { index } => write!(f, "cell {index} is no valid H3 cell: leave it out"),
            Self::DuplicateInput { index } => {
                write!(f, "cell {index} is there already, or lies under another: leave it out")
            }
            Self::UnsupportedResolution { index } => write!(
                f,
                "cell {index} has another resolution than the table: give cells of the table's resolution, or coarser ones with enable_heterogeneous_support"
            ),
            Self::EdgeNotInTable { index } => {
                write!(f, "a side of cell {index} is not in the edge table: take a table that covers the zone")
            }
            Self::EdgeTwice { index } => {
                write!(f, "the outline of cell {index} names an edge twice: report it with the table and the cell")
            }
            Self::PoolFull { index } => {
                write!(f, "no room for the outline of cell {index}: open the zone with more slots")
            }
            Self::TooManyCells => write!(f, "more cells than the zone can hold: open it with a larger capacity"),
            Self::BrokenState => {
                write!(
                    f,
                    "the state of the zone is damaged or belongs to another table: open it anew and offer its cells"
                )
            }
            Self::BadLengths => write!(
                f,
                "lengths or capacities do not fit: give the table's columns one length, 1 to 65,536 slots and room for 1 to 16,384 cells"
            ),
        }
    }
}

impl Error for Refusal {}
