//! The smallest problem that still shows a difference: calls, cells, memory and rows are left out as long as it does.
use crate::{
    problem::{Call, Counts, Difference, Problem, run},
    rules::{
        bytes::{self, table_of},
        memory::Memory,
        table::Table,
    },
};
use std::fmt;

pub fn shrink(mut problem: Problem, mut difference: Difference) -> (Problem, Difference) {
    while let Some((smaller, still)) = simpler_with_a_difference(&problem) {
        (problem, difference) = (smaller, still);
    }
    (problem, difference)
}

fn simpler_with_a_difference(problem: &Problem) -> Option<(Problem, Difference)> {
    simpler(problem).find_map(|candidate| differs(&candidate).map(|difference| (candidate, difference)))
}

fn differs(problem: &Problem) -> Option<Difference> {
    run(problem, &mut Counts::default()).err()
}

fn simpler(problem: &Problem) -> impl Iterator<Item = Problem> {
    let calls = (0..problem.calls.len()).rev().map(|call| without_call(problem, call));
    let cells = (0..problem.calls.len()).flat_map(|call| without_a_cell(problem, call));
    calls.chain(cells).chain(with_less_memory(problem)).chain(without_rows(problem))
}

fn without_call(problem: &Problem, call: usize) -> Problem {
    let mut smaller = problem.clone();
    smaller.calls.remove(call);
    smaller
}

fn without_a_cell(problem: &Problem, call: usize) -> Vec<Problem> {
    let Call::Dissolve { cells, .. } = &problem.calls[call] else {
        return Vec::new();
    };
    let without = |cell: usize| {
        let mut smaller = problem.clone();
        if let Call::Dissolve { cells, .. } = &mut smaller.calls[call] {
            cells.drain(8 * cell..8 * cell + 8);
        }
        smaller
    };
    (0..cells.len() / 8).map(without).collect()
}

/// A pair of rows, or one row of a table that does not pass the check.
fn without_rows(problem: &Problem) -> Vec<Problem> {
    let table = table_of(&problem.table);
    let good = table.check().is_ok();
    let gone = |row: usize| if good { vec![row, table.reverse_of(row)] } else { vec![row] };
    let rows = (0..table.rows()).filter(|row| !good || *row < table.reverse_of(*row));
    rows.filter_map(|row| without(problem, &table, &gone(row))).collect()
}

/// The other rows, numbered anew in table and state; none where a slot holds one that goes.
fn without(problem: &Problem, table: &Table, gone: &[usize]) -> Option<Problem> {
    let mut memory = memory_of(problem)?;
    let anew = |row: usize| row - gone.iter().filter(|other| **other < row).count();
    let stays = |row: &usize| !gone.contains(row);
    let kept = (0..table.rows()).filter(stays).collect::<Vec<_>>();
    for number in &mut memory.slot_row {
        let row = (*number as usize).wrapping_sub(1);
        if gone.contains(&row) {
            return None;
        }
        if row < table.rows() {
            *number = anew(row) as u32 + 1;
        }
    }
    memory.row_slot = kept.iter().map(|row| memory.row_slot[*row]).collect();
    memory.row_mark = kept.iter().map(|row| memory.row_mark[*row]).collect();
    let rest = Table {
        edges: kept.iter().map(|row| table.edges[*row]).collect(),
        reverse: kept.iter().map(|row| anew(table.reverse_of(*row)) as u32).collect(),
        area: kept.iter().map(|row| table.area[*row]).collect(),
    };
    Some(Problem { table: bytes::table_bytes(&rest), state: memory.encode(), ..problem.clone() })
}

/// Half the slots or places, or one less.
fn with_less_memory(problem: &Problem) -> Vec<Problem> {
    let less = |number: u32| [number / 2, number.saturating_sub(1)];
    let slots = less(problem.slots).map(|slots| (slots, problem.places));
    let places = less(problem.places).map(|places| (problem.slots, places));
    let smaller = slots.into_iter().chain(places).filter(|sizes| *sizes != (problem.slots, problem.places));
    smaller.filter_map(|(slots, places)| with_capacities(problem, slots, places)).collect()
}

fn with_capacities(problem: &Problem, slots: u32, places: u32) -> Option<Problem> {
    let mut memory = memory_of(problem)?;
    memory.cells.truncate(places as usize);
    for numbers in [&mut memory.parent, &mut memory.rank, &mut memory.cell_mark] {
        numbers.truncate(places as usize);
    }
    for numbers in [&mut memory.slot_row, &mut memory.slot_cell, &mut memory.prev, &mut memory.next] {
        numbers.truncate(slots as usize);
    }
    Some(Problem { state: memory.encode(), slots, places, ..problem.clone() })
}

fn memory_of(problem: &Problem) -> Option<Memory> {
    Memory::decode(&problem.state, problem.rows(), problem.slots as usize, problem.places as usize)
}

/// A problem in words and numbers, from which it can be made again.
impl fmt::Display for Problem {
    fn fmt(&self, f: &mut fmt::Formatter) -> fmt::Result {
        let table = table_of(&self.table);
        writeln!(
            f,
            "table of {} rows ({} bytes): edge, reverse row, bits of the term",
            table.rows(),
            self.table.len()
        )?;
        for row in 0..table.rows() {
            writeln!(f, "  {:016x} {} {:016x}", table.edges[row], table.reverse[row], table.area[row].to_bits())?;
        }
        let opened = self.state.windows(2).all(|pair| pair[0] == pair[1]);
        let first = self.state.first().copied().unwrap_or(0);
        writeln!(f, "state of {} bytes, {} slots, {} places", self.state.len(), self.slots, self.places)?;
        match opened {
            true => writeln!(f, "  all bytes {first:02x}")?,
            false => writeln!(f, "  {:02x?}", self.state)?,
        }
        self.calls.iter().try_for_each(|call| writeln!(f, "{call}"))
    }
}

impl fmt::Display for Call {
    fn fmt(&self, f: &mut fmt::Formatter) -> fmt::Result {
        match self {
            Self::Dissolve { cells, mode, slots, places, room } => {
                let bytes = cells.len();
                let cells = bytes::cells_of(cells).iter().map(|c| format!("{c:016x}")).collect::<Vec<_>>().join(" ");
                write!(
                    f,
                    "dissolve in mode {mode}, {slots} slots, {places} places, {room} bytes of output, {bytes} of cells: {cells}"
                )
            }
            Self::Standing { call: 0, value, .. } => write!(f, "open in mode {value}"),
            Self::Standing { call: 1, value, .. } => write!(f, "offer {value:016x}"),
            Self::Standing { call: 2, room, .. } => write!(f, "read out into {room} bytes"),
            Self::Standing { call, value, room } => write!(f, "call {call} with {value} and {room} bytes of output"),
        }
    }
}
