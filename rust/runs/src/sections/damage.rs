//! Damaged tables, lists and states; and states that pass the rules, though no calls would make them.
use super::{Context, PLACES, Report, SLOTS, dissolve_call, fault, good_list};
use crate::{
    problem::{Call, Problem},
    random::Random,
    rules::{
        calls,
        cells::{lies_under, owner, resolution},
        lists::Kept,
        memory::Memory,
    },
    tables::{Given, damaged, torus::ancestor},
};

pub fn run(context: &mut Context, report: &mut Report) -> Result<(), String> {
    let tables = context.regular_tables()?;
    for round in 0..context.rounds(4000) {
        let given = &tables[round % tables.len()];
        let random = &mut context.random;
        report.check(&damaged_table(given, random))?;
        report.check(&damaged_list(given, random))?;
        report.check(&damaged_state(given, random))?;
        report.check(&foreign_state(given, random))?;
    }
    Ok(())
}

fn damaged_table(given: &Given, random: &mut Random) -> Problem {
    let mut table = given.table.clone();
    for _ in 0..random.of(&[1, 1, 2, 3]) {
        damaged::damage(&mut table, random);
    }
    let mut problem = Problem::new(&table, SLOTS, 16, false);
    let list = good_list(given, false, 4, random);
    problem.calls.push(Call::open(0));
    problem.calls.extend(list.iter().map(|cell| Call::offer(*cell)));
    problem.calls.push(Call::read_out(problem.room()));
    problem.calls.push(dissolve_call(&problem, random.below(2) as u32, &list));
    problem
}

/// Many faults in one list, so that the order of the tests counts.
fn damaged_list(given: &Given, random: &mut Random) -> Problem {
    let mut list = good_list(given, random.one_in(2), 12, random);
    for _ in 0..1 + random.below(5) {
        let cell = fault(given, &list, random);
        list.insert(random.below(list.len() + 1), cell);
    }
    let places = if random.one_in(3) { list.len() as u32 - 1 } else { PLACES };
    let mut problem = Problem::new(&given.table, 1, 1, true);
    let (cells, room) = (crate::rules::bytes::cell_bytes(&list), problem.room());
    problem.calls.push(Call::Dissolve { cells, mode: random.below(3) as u32, slots: SLOTS, places, room });
    problem
}

/// A state after some offers, in memory of about the size it needs.
fn good_state(given: &Given, random: &mut Random) -> Memory {
    let mixed = random.one_in(2);
    let list = good_list(given, mixed, 10, random);
    let kept = if mixed { Kept::Mixed } else { Kept::Even };
    let slots = random.of(&[64, 200, SLOTS as usize]);
    let mut memory = Memory::opened(kept as u32, given.table.rows(), slots, list.len() + random.below(3));
    for cell in list {
        calls::offer(&given.table, &mut memory, cell).ok();
    }
    memory
}

fn with_state(given: &Given, memory: &Memory, random: &mut Random) -> Problem {
    let mut problem = Problem::new(&given.table, memory.slots() as u32, memory.places() as u32, false);
    problem.state = memory.encode();
    problem.calls.push(Call::read_out(problem.room()));
    let cell = random.of(&given.cells);
    problem.calls.push(Call::offer(cell));
    problem.calls.push(Call::read_out(problem.room()));
    problem
}

/// One number of the state is another one, or a few are.
fn damaged_state(given: &Given, random: &mut Random) -> Problem {
    let mut memory = good_state(given, random);
    for _ in 0..random.of(&[1, 1, 1, 2]) {
        let mut numbers = vec![
            &mut memory.parent,
            &mut memory.rank,
            &mut memory.cell_mark,
            &mut memory.slot_row,
            &mut memory.slot_cell,
            &mut memory.prev,
            &mut memory.next,
            &mut memory.row_slot,
            &mut memory.row_mark,
        ];
        match random.below(numbers.len() + 3) {
            0 => memory.head[0] = random.of(&[0, 1, 2, u32::MAX]),
            1 => memory.head[1] = memory.head[1].wrapping_add(random.of(&[1, u32::MAX, 1000])),
            2 => {
                let place = random.below(memory.places());
                memory.cells[place] = fault(given, &memory.cells.clone(), random);
            }
            slice => {
                let numbers = &mut numbers[slice - 3];
                // Near the start, where the used ones are, or anywhere.
                let most = if random.one_in(2) { numbers.len() } else { numbers.len().min(40) };
                let (at, other) = (random.below(most), random.below(most));
                numbers[at] = match random.below(4) {
                    0 => numbers[other],
                    1 => numbers[at].wrapping_add(random.of(&[1, u32::MAX])),
                    2 => random.of(&[0, 1, numbers.len() as u32, u32::MAX]),
                    _ => random.below(numbers.len()) as u32,
                };
            }
        }
    }
    with_state(given, &memory, random)
}

/// Slots in another place, edges held that don't stand, coarser cells, links of another permutation, other parents of a legal rank, other
/// numbers where nothing is read.
fn foreign_state(given: &Given, random: &mut Random) -> Problem {
    let mut memory = good_state(given, random);
    let slots = memory.slots();
    for _ in 0..random.below(6) {
        swap_slots(&mut memory, random.below(slots), random.below(slots));
    }
    if random.one_in(2) {
        put_back(given, &mut memory, random);
    }
    let used = (0..slots).filter(|slot| memory.slot_row[*slot] != 0).collect::<Vec<_>>();
    if !used.is_empty() {
        for _ in 0..random.below(4) {
            swap_links(&mut memory, random.of(&used), random.of(&used));
        }
    }
    let held = memory.held();
    if held > 0 && random.one_in(2) {
        let (place, parent) = (random.below(held), random.below(held));
        memory.parent[place] = parent as u32;
        memory.rank[parent] += u32::from(random.one_in(2));
    }
    // An ancestor owns the same edges, and may lie above another cell.
    if held > 0 && memory.head[0] == 1 && random.one_in(3) {
        let place = random.below(held);
        let level = random.below(resolution(memory.cells[place]) as usize + 1) as u32;
        memory.cells[place] = ancestor(memory.cells[place], level);
    }
    for place in held..memory.places() {
        memory.cells[place] = random.number();
        memory.parent[place] = random.number() as u32;
        memory.rank[place] = random.number() as u32;
    }
    with_state(given, &memory, random)
}

/// An edge of a held cell that doesn't stand is held again, alone or with its reverse, which the rules forbid.
fn put_back(given: &Given, memory: &mut Memory, random: &mut Random) {
    let table = &given.table;
    let place = |row: usize| {
        let owner = owner(table.edges[row]);
        memory.held_cells().iter().position(|cell| *cell == owner || lies_under(owner, *cell))
    };
    let cancelled = |row: &usize| memory.slot_of(*row).is_none() && place(*row).is_some();
    let rows = (0..table.rows()).filter(|row| cancelled(row) && cancelled(&table.reverse_of(*row))).collect::<Vec<_>>();
    if rows.is_empty() {
        return;
    }
    let row = random.of(&rows);
    let back = if random.one_in(2) { vec![row] } else { vec![row, table.reverse_of(row)] };
    let places = back.iter().filter_map(|row| place(*row)).collect::<Vec<_>>();
    let free = memory.free_slots().take(back.len()).collect::<Vec<_>>();
    for ((row, place), slot) in back.into_iter().zip(places).zip(free) {
        memory.slot_row[slot] = row as u32 + 1;
        memory.row_slot[row] = slot as u32 + 1;
        memory.slot_cell[slot] = place as u32;
        memory.prev[slot] = slot as u32;
        memory.next[slot] = slot as u32;
    }
}

/// What the two slots hold changes places; the links go along.
fn swap_slots(memory: &mut Memory, a: usize, b: usize) {
    for numbers in [&mut memory.slot_row, &mut memory.slot_cell, &mut memory.prev, &mut memory.next] {
        numbers.swap(a, b);
    }
    let renamed = |slot: usize| {
        if slot == a {
            b
        } else if slot == b {
            a
        } else {
            slot
        }
    };
    for slot in 0..memory.slots() {
        if let Some(row) = memory.row_in(slot) {
            memory.row_slot[row] = slot as u32 + 1;
            memory.prev[slot] = renamed(memory.prev[slot] as usize) as u32;
            memory.next[slot] = renamed(memory.next[slot] as usize) as u32;
        }
    }
}

/// Each of the two goes on where the other did.
fn swap_links(memory: &mut Memory, a: usize, b: usize) {
    memory.next.swap(a, b);
    for slot in [a, b] {
        let next = memory.next[slot] as usize;
        memory.prev[next] = slot as u32;
    }
}
