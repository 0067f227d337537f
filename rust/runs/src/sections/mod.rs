//! The sections of the runs, and what they share: tables, and lists of cells on them.
mod boundary;
mod damage;
mod dissolve;
mod full;
pub mod odd;
mod order;
mod pool;
mod short;
mod standing;
mod walk;

use crate::{
    problem::{Call, Problem},
    random::Random,
    report::Report,
    rules::{
        bytes::{MOST_CELLS, MOST_PLACES as PLACES, MOST_SLOTS as SLOTS, cell_bytes},
        cells::{lies_under, resolution},
    },
    tables::{
        Given,
        real::Folder,
        torus::{ancestor, child, torus},
    },
};

pub struct Context<'a> {
    pub random: Random,
    pub rounds: Option<usize>,
    pub folder: &'a Folder,
}

type Section = fn(&mut Context, &mut Report) -> Result<(), String>;

pub const SECTIONS: [(&str, Section); 10] = [
    ("walk", walk::run),
    ("short", short::run),
    ("dissolve", dissolve::run),
    ("standing", standing::run),
    ("order", order::run),
    ("boundary", boundary::run),
    ("damage", damage::run),
    ("odd", odd::run),
    ("pool", pool::run),
    ("full", full::run),
];

/// Those in which the Rust is asked as well, apart from `odd` and `pool`, which are about nothing else.
pub const ASK_THE_RUST: [&str; 7] = ["walk", "short", "dissolve", "standing", "boundary", "damage", "full"];

impl Context<'_> {
    fn rounds(&self, default: usize) -> usize {
        self.rounds.unwrap_or(default)
    }

    /// Real tables and tori, on all of which the Rust can be asked.
    fn regular_tables(&mut self) -> Result<Vec<Given>, String> {
        let mut tables = self.folder.small(&mut self.random)?;
        for (width, height, resolution) in [(3, 3, 0), (5, 4, 0), (11, 10, 0), (3, 3, 1), (6, 4, 1), (3, 1, 2)] {
            tables.push(torus(width, height, resolution, &mut self.random));
            tables.push(torus(width, height, resolution, &mut self.random).with_other_terms(&mut self.random));
        }
        Ok(tables)
    }
}

/// A list that passes the checks of its own mode: clumps of cells with near numbers, some of them coarser.
pub fn good_list(given: &Given, mixed: bool, most: usize, random: &mut Random) -> Vec<u64> {
    let most = 1 + random.below(most.min(given.cells.len()).min(MOST_CELLS));
    let mut list = Vec::<u64>::new();
    let mut at = random.below(given.cells.len());
    for _ in 0..most {
        at = if random.one_in(3) { random.below(given.cells.len()) } else { (at + 1) % given.cells.len() };
        let coarser = mixed && !given.coarser.is_empty() && random.one_in(2);
        let cell = if coarser { random.of(&given.coarser) } else { given.cells[at] };
        if list.iter().all(|other| *other != cell && !lies_under(*other, cell) && !lies_under(cell, *other)) {
            list.push(cell);
        }
    }
    random.shuffle(&mut list);
    list
}

/// A cell that is not welcome: invalid, held already, coarser, finer, above or below another, or not in the table.
pub fn fault(given: &Given, list: &[u64], random: &mut Random) -> u64 {
    let any = *list.get(random.below(list.len().max(1))).unwrap_or(&given.cells[0]);
    let level = resolution(any);
    match random.below(8) {
        0 => any,
        1 => any ^ 1 << random.below(64),
        2 => random.number(),
        3 if level > 0 => ancestor(any, random.below(level as usize) as u32),
        4 if level < 15 => child(any, level + 1, random.below(7) as u64),
        5 => ancestor(random.of(&given.cells), 0) ^ 1 << 45,
        6 => with_base_cell(any, random.of(&[121, 122, 127])),
        _ => random.of(&given.cells),
    }
}

/// The same digits in another base cell; there are 122.
fn with_base_cell(cell: u64, base: u64) -> u64 {
    (cell & !(0x7f << 45)) | (base << 45)
}

pub fn dissolve_call(problem: &Problem, mode: u32, cells: &[u64]) -> Call {
    Call::Dissolve { cells: cell_bytes(cells), mode, slots: SLOTS, places: PLACES, room: problem.room() }
}
