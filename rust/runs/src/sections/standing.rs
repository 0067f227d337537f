//! A standing state after every call: offers that are accepted, refused or replayed, read out in between, in pools that are ample or tight.
use super::{Context, PLACES, Report, SLOTS, dissolve_call, fault, good_list};
use crate::{
    problem::{Call, Problem},
    random::Random,
    tables::Given,
};

pub fn run(context: &mut Context, report: &mut Report) -> Result<(), String> {
    let tables = context.regular_tables()?;
    for round in 0..context.rounds(1200) {
        let given = &tables[round % tables.len()];
        report.check(&script(given, true, &mut context.random))?;
    }
    Ok(())
}

/// Calls in a row on one state.
pub fn script(given: &Given, regular: bool, random: &mut Random) -> Problem {
    let mixed = random.one_in(2);
    let list = good_list(given, mixed, random.of(&[4, 12, 40]), random);
    let slots = if random.one_in(3) { 6 + random.below(60) as u32 } else { SLOTS };
    let places = if random.one_in(3) { 1 + random.below(list.len()) as u32 } else { PLACES };
    let mut problem = Problem::new(&given.table, slots, places, regular);
    let mode = if mixed { 1 } else { random.of(&[0, 2]) };
    problem.calls.push(Call::open(mode));
    for (i, cell) in list.iter().enumerate() {
        if random.one_in(6) {
            problem.calls.push(Call::offer(list[random.below(i + 1)]));
        }
        if random.one_in(6) {
            problem.calls.push(Call::offer(fault(given, &list[..i], random)));
        }
        problem.calls.push(Call::offer(*cell));
        problem.calls.push(Call::read_out(problem.room()));
        if random.one_in(40) {
            problem.calls.push(dissolve_call(&problem, mode as u32, &list[..=i]));
        }
        if random.one_in(60) {
            problem.calls.push(Call::open(random.below(4) as u64));
        }
    }
    problem
}
