//! Tables that pass the check but make no surface: the library against the rules on random pairs, and what the Rust does on the smallest of
//! them (`smallest`), which `search` finds. docs/DIFFERENCES.md tells of each.
#[cfg(h3o)]
mod search;
mod smallest;

use super::{Context, Report, dissolve_call, good_list, standing::script};
use crate::{
    random::Random,
    rules::cells::resolution,
    tables::{
        Given,
        odd::{cell_of, random_pairs},
        torus::torus,
    },
};
pub use smallest::answer_of_the_rust;

pub fn run(context: &mut Context, report: &mut Report) -> Result<(), String> {
    smallest::run(report)?;
    for _ in 0..context.rounds(2000) {
        let random = &mut context.random;
        let given = random_table(random);
        if given.cells.is_empty() {
            continue;
        }
        let mut problem = script(&given, false, random);
        let list = good_list(&given, true, 12, random);
        problem.calls.push(dissolve_call(&problem, 1, &list));
        report.check(&problem)?;
    }
    Ok(())
}

/// The edges of some cells, of resolution 0 or 1, paired at random.
fn random_table(random: &mut Random) -> Given {
    let (width, height) = (1 + random.below(3) as i64, 1 + random.below(2) as i64);
    let mut cells = torus(width.max(3), height, random.below(2) as u32, random).cells;
    random.shuffle(&mut cells);
    cells.truncate(1 + random.below(12));
    if cells.iter().all(|cell| resolution(*cell) == 0) && random.one_in(2) {
        cells.extend(['P', 'Q'].map(cell_of));
    }
    random_pairs(&cells, random)
}

/// Looks through every table of one cell and of two for those of `smallest`.
#[cfg(h3o)]
pub fn search() -> Result<(), String> {
    search::run()
}

#[cfg(not(h3o))]
pub fn search() -> Result<(), String> {
    Err("the Rust's texts were not there when this was built".into())
}
