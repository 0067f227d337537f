//! Outlines: the rules' walk against the Rust's Gosper at every resolution, and the library's through dissolve of a single cell, on a table
//! of the outline and as many edges that belong to another base cell.
use super::{Context, Report, SLOTS, dissolve_call};
use crate::{
    problem::{Call, Problem},
    random::Random,
    rules::{cells::base_cell, walk::outline},
    tables::{
        table_of_pairs,
        torus::{self, child},
    },
};

/// The deepest outline that fits a table of 1,024 rows with its reverses: 486 edges.
const DEEPEST_IN_A_TABLE: u32 = 4;

pub fn run(context: &mut Context, report: &mut Report) -> Result<(), String> {
    for _ in 0..context.rounds(10) {
        for resolution in 0..=15 {
            let random = &mut context.random;
            every_target(hexagon(resolution, random), resolution, random, report)?;
            every_target(pentagon(resolution, random), resolution, random, report)?;
        }
    }
    Ok(())
}

fn every_target(cell: u64, resolution: u32, random: &mut Random, report: &mut Report) -> Result<(), String> {
    for target in 0..=15.min(resolution + 7) {
        compare_with_the_rust(cell, target, report)?;
        if (resolution..=resolution + DEEPEST_IN_A_TABLE).contains(&target) {
            report.check(&single_cell(cell, target, random))?;
        }
    }
    Ok(())
}

/// A random cell that is no pentagon.
fn hexagon(resolution: u32, random: &mut Random) -> u64 {
    let base = random.below(122) as u64;
    let mut cell = torus::base_cell(if base == 4 { 5 } else { base });
    for level in 1..=resolution {
        cell = child(cell, level, random.below(7) as u64);
    }
    if crate::rules::cells::is_pentagon(cell) { hexagon(resolution, random) } else { cell }
}

fn pentagon(resolution: u32, random: &mut Random) -> u64 {
    let base = random.of(&[4, 14, 24, 38, 49, 58, 63, 72, 83, 97, 107, 117]);
    (1..=resolution).fold(torus::base_cell(base), |cell, level| child(cell, level, 0))
}

#[cfg(h3o)]
fn compare_with_the_rust(cell: u64, target: u32, report: &mut Report) -> Result<(), String> {
    report.problem();
    let resolution = oracle::Resolution::new(target as u8).expect("a resolution is at most 15");
    let theirs = oracle::CellIndex(cell).outline(resolution).map(|edge| edge.0).collect::<Vec<_>>();
    if theirs != outline(cell, target) {
        return Err(format!("walk: the outline of {cell:016x} at resolution {target} is not the Rust's"));
    }
    report.counts.add(crate::problem::AGAINST_THE_RUST);
    Ok(())
}

#[cfg(not(h3o))]
fn compare_with_the_rust(_: u64, _: u32, _: &mut Report) -> Result<(), String> {
    Ok(())
}

fn single_cell(cell: u64, target: u32, random: &mut Random) -> Problem {
    // Base cell 0 is no pentagon and 1 is none either, so that every edge number is valid there.
    let other = if base_cell(cell) == 0 { 1 } else { 0 };
    let moved = |edge: u64| (edge & !(0x7f << 45)) | (other << 45);
    let pairs = outline(cell, target).into_iter().map(|edge| (edge, moved(edge))).collect::<Vec<_>>();
    let table = table_of_pairs(&pairs, |_| random.term());
    let mut problem = Problem::new(&table, SLOTS, 1, true);
    problem.calls.push(dissolve_call(&problem, 1, &[cell]));
    // The slots of the state show where the walk starts.
    problem.calls.extend([Call::open(1), Call::offer(cell)]);
    problem
}
