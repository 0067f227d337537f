//! Every list of up to four cells on two small tables, in every mode: a real one of seven hexagons, and a part of a torus with a parent and
//! its children. Each list has room for a cell that is invalid, finer, coarser or unknown. Up to three cells are also offered one by one.
use super::{Context, PLACES, Report, SLOTS, dissolve_call};
use crate::{
    problem::{Call, Problem},
    rules::cells::resolution,
    tables::{
        Given,
        torus::{ancestor, child, torus},
    },
};

pub fn run(context: &mut Context, report: &mut Report) -> Result<(), String> {
    let seven = Given::new("seven_r9", context.folder.read("seven_r9")?);
    let mut choices = seven.cells.clone();
    choices.extend([ancestor(choices[0], 8), child(choices[1], 10, 3), choices[2] ^ (1 << 59)]);
    every_list(&seven, &choices, report)?;

    let torus = torus(3, 3, 1, &mut context.random);
    let (a, b) = (torus.coarser[4], torus.coarser[5]);
    let choices = [a, child(a, 1, 0), child(a, 1, 4), b, child(b, 1, 3), child(child(b, 1, 0), 2, 1), torus.coarser[8]];
    every_list(&torus, &choices, report)
}

fn every_list(given: &Given, choices: &[u64], report: &mut Report) -> Result<(), String> {
    let mut lists = vec![Vec::new()];
    for length in 0..=4 {
        for list in &lists {
            report.check(&problem(given, list))?;
        }
        if length < 4 {
            lists = lists
                .iter()
                .flat_map(|list| choices.iter().map(move |cell| [list.as_slice(), &[*cell]].concat()))
                .collect();
        }
    }
    Ok(())
}

fn problem(given: &Given, list: &[u64]) -> Problem {
    let mut problem = Problem::new(&given.table, SLOTS.min(given.table.rows() as u32), PLACES.min(4), true);
    // A list of four with a coarser cell is interesting in mixed mode, one without in both; mode 2 means even.
    let coarser = list.iter().any(|cell| resolution(*cell) != given.table.target());
    let modes: &[u32] = if list.len() == 4 && coarser { &[1] } else { &[0, 1, 2] };
    for mode in modes {
        problem.calls.push(dissolve_call(&problem, *mode, list));
        if list.len() <= 3 && *mode != 2 {
            problem.calls.push(Call::open((*mode).into()));
            for cell in list {
                problem.calls.push(Call::offer(*cell));
            }
            problem.calls.push(Call::read_out(problem.room()));
        }
    }
    problem
}
