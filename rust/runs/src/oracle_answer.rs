//! The Rust's answers, on the domain of the runs: valid tables, valid cells, enough room; in even mode not a list that is all of one
//! resolution other than the target. Rings compare as cycles, areas bit for bit, and ties go as document 01 settles them.
use crate::rules::{lists::Kept, rings::ReadOut, table::Table};

#[cfg_attr(not(h3o), allow(dead_code))]
pub enum Compared {
    Same,
    LeftOut(&'static str),
}

/// A list's outcome by the rules: what it shows, or the refusal's number.
pub type Defined = Result<ReadOut, u32>;

#[cfg(h3o)]
mod asked {
    use super::{Compared, Defined, Kept, ReadOut, Table};
    use crate::rules::{
        cells::{lies_under, resolution},
        rings::Ring,
    };
    use oracle::{
        Resolution,
        dissolve::{self, Answer, Mode},
        error::DissolutionError,
    };

    /// A table as the oracle's stand-ins read it.
    pub struct Lent(oracle::table::Table);

    pub fn lent(table: &Table) -> Option<Lent> {
        table.check().ok()?;
        oracle::table::Table::new(table.edges.clone(), table.reverse.clone(), table.area.clone()).map(Lent)
    }

    impl Lent {
        pub fn ask(&self, kept: Kept, target: u32, cells: &[u64]) -> Answer {
            let target = Resolution::new(target as u8).expect("a resolution is at most 15");
            let mode = if kept == Kept::Mixed { Mode::Mixed(target) } else { Mode::Even };
            dissolve::dissolve(&self.0, mode, cells)
        }

        pub fn compare(&self, kept: Kept, target: u32, cells: &[u64], defined: &Defined) -> Result<Compared, String> {
            let other = |cell: &u64| resolution(*cell) != target && resolution(*cell) == resolution(cells[0]);
            if kept == Kept::Even && !cells.is_empty() && cells.iter().all(other) {
                return Ok(Compared::LeftOut("even, all of one other resolution"));
            }
            // Where both reasons apply in mixed mode, the Rust's choice is unordered.
            let finer = cells.iter().any(|cell| resolution(*cell) > target);
            let under = || cells.iter().any(|a| cells.iter().any(|b| lies_under(*a, *b)));
            if kept == Kept::Mixed && *defined.as_ref().err().unwrap_or(&0) == 4 && finer && under() {
                return match self.ask(kept, target, cells) {
                    Answer::Refused(_) => Ok(Compared::LeftOut("refused for two reasons")),
                    _ => Err("the Rust accepts a list that is refused for two reasons".into()),
                };
            }
            let answer = self.ask(kept, target, cells);
            if same(&answer, defined) {
                Ok(Compared::Same)
            } else {
                Err(format!("the rules say {defined:?}, the Rust says {answer:?}"))
            }
        }
    }

    fn same(answer: &Answer, defined: &Defined) -> bool {
        match (answer, defined) {
            (Answer::Refused(DissolutionError::DuplicateInput), Err(3)) => true,
            (Answer::Refused(DissolutionError::UnsupportedResolution), Err(4)) => true,
            (Answer::Nothing, Ok(ReadOut::Nothing)) | (Answer::Closed, Ok(ReadOut::Closed)) => true,
            (Answer::Outline(theirs), Ok(ReadOut::Outline(ours))) => {
                same_lists(theirs, ours, |theirs, ours| same_lists(theirs, ours, same_ring))
            }
            _ => false,
        }
    }

    fn same_ring(theirs: &oracle::dissolve::Ring, ours: &Ring) -> bool {
        let same_area = theirs.area.to_bits() == ours.area.to_bits() || theirs.area.is_nan() && ours.area.is_nan();
        same_area && same_lists(&theirs.rows, &ours.rows, |a, b| *a as usize == *b)
    }

    fn same_lists<A, B>(theirs: &[A], ours: &[B], same: impl Fn(&A, &B) -> bool) -> bool {
        theirs.len() == ours.len() && theirs.iter().zip(ours).all(|(a, b)| same(a, b))
    }
}

#[cfg(h3o)]
pub use asked::{Lent, lent};

/// Without the crate's texts there is nothing to ask.
#[cfg(not(h3o))]
pub struct Lent;

#[cfg(not(h3o))]
pub fn lent(_: &Table) -> Option<Lent> {
    None
}

#[cfg(not(h3o))]
impl Lent {
    pub fn compare(&self, _: Kept, _: u32, _: &[u64], _: &Defined) -> Result<Compared, String> {
        Ok(Compared::LeftOut("no texts"))
    }
}
