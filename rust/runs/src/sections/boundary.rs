//! Around each bound: places, slots, output and byte lengths, modes and call numbers; document 01's T8 and T9 with their slots.
use super::{Context, PLACES, Report, SLOTS, dissolve_call, good_list};
use crate::{
    problem::{Call, Problem},
    random::Random,
    rules::{
        bytes::{self, HEAD, MOST_ROWS, cell_bytes},
        cells::owner,
        lists::Kept,
        memory::Memory,
        pool,
        table::Table,
    },
    subject,
    tables::{
        Given, part,
        torus::{base_cell, torus},
    },
};

pub fn run(context: &mut Context, report: &mut Report) -> Result<(), String> {
    let seven = Given::new("seven_r9", context.folder.read("seven_r9")?);
    flower(&seven, report)?;
    rows_around_the_bound(context, report)?;
    cells_around_the_bound(context, report)?;
    let tables = context.regular_tables()?;
    for round in 0..context.rounds(600) {
        let given = &tables[round % tables.len()];
        report.check(&lists(given, &mut context.random))?;
        report.check(&numbers(given, &mut context.random))?;
    }
    Ok(())
}

/// T8 and T9: offered around, the sixth cell needs 28 slots; then the centre needs 30.
fn flower(given: &Given, report: &mut Report) -> Result<(), String> {
    let neighbours = |cell: u64| {
        let rows = given.table.outline(cell).into_iter().flatten().collect::<Vec<_>>();
        rows.into_iter().map(|row| owner(given.table.edges[given.table.reverse_of(row)])).collect::<Vec<_>>()
    };
    let inner = |cell: &u64| neighbours(*cell).iter().all(|other| given.cells.contains(other));
    let centre = given.cells.iter().copied().find(inner).ok_or("seven_r9 has no cell with six neighbours")?;
    let mut cells = neighbours(centre);
    cells.push(centre);
    for slots in 26..=31 {
        let taken = taken_in_turn(given, &cells, slots);
        if taken != [5, 5, 6, 6, 7, 7][slots as usize - 26] {
            return Err(format!("boundary: T8 and T9: {taken} cells fit in {slots} slots"));
        }
        let mut problem = Problem::new(&given.table, slots, 7, true);
        problem.calls.push(Call::open(0));
        for cell in &cells {
            problem.calls.push(Call::offer(*cell));
            problem.calls.push(Call::read_out(problem.room()));
        }
        for count in [6, 7] {
            let (cells, room) = (cell_bytes(&cells[..count]), problem.room());
            problem.calls.push(Call::Dissolve { cells, mode: 2, slots, places: 7, room });
        }
        report.check(&problem)?;
    }
    Ok(())
}

/// How many cells the library takes before it refuses the first one.
fn taken_in_turn(given: &Given, cells: &[u64], slots: u32) -> usize {
    let table = bytes::table_bytes(&given.table);
    let mut state = vec![0; Memory::bytes(given.table.rows(), slots as usize, cells.len())];
    let mut offer = |cell: u64| subject::standing(&table, &mut state, &mut [], slots, cells.len() as u32, 1, cell);
    cells.iter().take_while(|cell| offer(**cell) == 0).count()
}

/// Tables of no row, of few rows and of about 1,024; an odd one has a last row without a reverse.
fn rows_around_the_bound(context: &mut Context, report: &mut Report) -> Result<(), String> {
    let large = torus(5, 5, 1, &mut context.random).table;
    let firsts = (0..large.rows()).filter(|row| *row < large.reverse_of(*row)).collect::<Vec<_>>();
    for rows in [0, 1, 2, 3, 4, MOST_ROWS - 1, MOST_ROWS, MOST_ROWS + 1, MOST_ROWS + 2] {
        let kept = &firsts[..rows / 2];
        let mut table = part(&large, |row| kept.contains(&row));
        if rows % 2 == 1 {
            table.edges.push(large.edges[large.rows() - 1]);
            table.reverse.push(0);
            table.area.push(0.);
        }
        report.check(&every_call(&table))?;
    }
    Ok(())
}

fn every_call(table: &Table) -> Problem {
    let mut problem = Problem::new(table, 64, 8, true);
    let cell = base_cell(0);
    let calls = [Call::open(1), Call::offer(cell), Call::read_out(problem.room()), Call::read_out(HEAD - 1)];
    problem.calls.extend(calls);
    problem.calls.push(dissolve_call(&problem, 0, &[cell]));
    problem.calls.push(dissolve_call(&problem, 1, &[]));
    problem
}

/// 255, 256 and 257 cells in a list, with places to match.
fn cells_around_the_bound(context: &mut Context, report: &mut Report) -> Result<(), String> {
    // 110 base cells are too few for 257 valid cells of one small table: the list's tests come first, so that finer cells serve.
    let given = torus(5, 5, 0, &mut context.random);
    let finer = torus(9, 5, 1, &mut context.random).cells;
    for count in 254..=258 {
        let mut problem = Problem::new(&given.table, SLOTS, 4, true);
        for places in [0, 1, PLACES - 1, PLACES, PLACES + 1] {
            for list in [&finer[..count], &given.cells.repeat(11)[..count]] {
                let (cells, room) = (cell_bytes(list), problem.room());
                problem.calls.push(Call::Dissolve { cells, mode: 1, slots: SLOTS, places, room });
            }
        }
        report.check(&problem)?;
    }
    Ok(())
}

/// One list, with places, slots and outputs around what it needs.
fn lists(given: &Given, random: &mut Random) -> Problem {
    let mixed = random.one_in(2);
    let list = good_list(given, mixed, 60, random);
    let mode = u32::from(mixed);
    let (peak, size) = needs(given, &list);
    let count = list.len() as u32;
    let mut problem = Problem::new(&given.table, SLOTS, PLACES, true);
    let places = [0, count.saturating_sub(1), count, count + 1];
    let slots = [0, 1, peak.saturating_sub(1), peak, peak + 1, SLOTS, SLOTS + 1, u32::MAX];
    let rooms = [0, HEAD - 1, HEAD, size - 4, size - 1, size, size + 1, problem.room()];
    let cells = cell_bytes(&list);
    for _ in 0..6 {
        let (mut places, mut slots, mut room) = (random.of(&places), random.of(&slots), random.of(&rooms));
        // Mostly one bound at a time.
        match random.below(4) {
            0 => (slots, room) = (peak, problem.room()),
            1 => (places, room) = (count, problem.room()),
            2 => (places, slots) = (count, peak),
            _ => {}
        }
        problem.calls.push(Call::Dissolve { cells: cells.clone(), mode, slots, places, room });
    }
    problem.calls.push(Call::open(mode.into()));
    problem.calls.extend(list.iter().map(|cell| Call::offer(*cell)));
    problem.calls.extend(rooms.map(Call::read_out));
    problem
}

/// The slots that a list needs at its worst, and the bytes of its answer.
fn needs(given: &Given, list: &[u64]) -> (u32, usize) {
    let table = &given.table;
    let mut memory = Memory::opened(Kept::Mixed as u32, table.rows(), 2 * table.rows(), list.len());
    let mut peak = 0;
    for cell in list {
        let rows = table.outline(*cell).into_iter().flatten().collect::<Vec<_>>();
        let used = memory.slots() - memory.free_slots().count();
        peak = peak.max(used + rows.len());
        pool::take(table, &mut memory, *cell, &rows);
    }
    (peak as u32, bytes::encode(&crate::rules::rings::read(table, &memory)).len())
}

/// Lengths that are no whole number of records, states of another length, modes, calls and capacities that are not there.
fn numbers(given: &Given, random: &mut Random) -> Problem {
    let mut problem = Problem::new(&given.table, 8 + random.below(100) as u32, 1 + random.below(9) as u32, true);
    let room = problem.room();
    let list = good_list(given, false, 3, random);
    let odd =
        |random: &mut Random| random.of(&[0_u64, 1, 2, 3, 4, 255, 256, 1 << 31, 1 << 32, (1 << 32) + 1, u64::MAX]);
    match random.below(6) {
        0 => problem.table.truncate(problem.table.len() - 1 - random.below(bytes::ROW - 1)),
        1 => problem.state.truncate(problem.state.len() - 1 - random.below(8)),
        2 => problem.state.extend([0; 4]),
        3 => problem.slots = random.of(&[0, SLOTS, SLOTS + 1, u32::MAX]),
        4 => problem.places = random.of(&[0, PLACES, PLACES + 1, u32::MAX]),
        _ => {}
    }
    if random.one_in(2) && problem.slots <= SLOTS && problem.places <= PLACES {
        let (slots, places) = (problem.slots as usize, problem.places as usize);
        problem.state.resize(Memory::bytes(problem.rows(), slots, places), 0);
    }
    problem.calls.push(Call::open(odd(random)));
    problem.calls.extend(list.iter().map(|cell| Call::offer(*cell)));
    problem.calls.push(Call::Standing { call: random.of(&[2, 3, 4, 1 << 31, u32::MAX]), value: odd(random), room });
    problem.calls.push(Call::read_out(room));
    let mut cells = cell_bytes(&list);
    cells.truncate(cells.len() - random.of(&[0, 0, 1, 4, 7]));
    let (mode, slots, places) = (odd(random) as u32, problem.slots, problem.places);
    problem.calls.push(Call::Dissolve { cells, mode, slots, places, room });
    problem
}
