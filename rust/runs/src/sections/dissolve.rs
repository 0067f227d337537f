//! Random lists on real and hand-made tables, in every mode, some with a fault.
use super::{Context, PLACES, Report, SLOTS, dissolve_call, fault, good_list};
use crate::problem::Problem;

pub fn run(context: &mut Context, report: &mut Report) -> Result<(), String> {
    let tables = context.regular_tables()?;
    for given in &tables {
        let mut whole = Problem::new(&given.table, SLOTS, PLACES, true);
        whole.calls.push(dissolve_call(&whole, 0, &given.cells));
        whole.calls.push(dissolve_call(&whole, 1, &given.coarser));
        report.check(&whole)?;
    }
    for round in 0..context.rounds(6000) {
        let random = &mut context.random;
        let given = &tables[round % tables.len()];
        let mode = random.of(&[0, 1, 1, 2]);
        let mut list = good_list(given, mode == 1, 250, random);
        for _ in 0..random.of(&[0, 0, 0, 0, 1, 1, 2]) {
            let cell = fault(given, &list, random);
            list.insert(random.below(list.len() + 1), cell);
        }
        let mut problem = Problem::new(&given.table, 1, 1, true);
        problem.calls.push(dissolve_call(&problem, mode, &list));
        report.check(&problem)?;
    }
    Ok(())
}
