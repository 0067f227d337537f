//! Times, each beside the Rust's or a plain read in one run: the same lists on the same real table, called in turn, the least of many.
//! The Rust's reverse and area term come from a hash map instead of its neighbour tables and trigonometry.
use crate::{
    clock::{least_in_turn, time},
    random::Random,
    rules::{
        bytes::{HEAD, cell_bytes, table_bytes},
        full::Outputs,
        memory::Memory,
        table::Table,
    },
    subject::{self, exports},
    tables::{
        Given, part,
        real::Folder,
        regions::{disk, mixed, scattered},
    },
};
use std::{collections::BTreeSet, hint::black_box, time::Duration};

/// All tables, or open and offer alone.
pub fn run(folder: &Folder, checks_alone: bool) -> Result<(), String> {
    if !(oracle::AVAILABLE && subject::AVAILABLE) {
        return Err(
            "a benchmark needs the library (target/staticlib/libhost.a) and the Rust's texts when it is built".into()
        );
    }
    let big = Given::new("big_r9", folder.read("big_r9")?);
    if checks_alone {
        checks(&big);
        return Ok(());
    }
    dissolves(&big);
    checks(&big);
    walks();
    Ok(())
}

fn dissolves(big: &Given) {
    heading("Rust");
    for (name, mode, cells) in lists(big) {
        // The table of the cells' own edges and their reverses, and room for just these.
        let wanted = cells.iter().flat_map(|cell| big.table.outline(*cell)).flatten().collect::<BTreeSet<_>>();
        let table = part(&big.table, |row| wanted.contains(&row));
        dissolve(&format!("dissolve, {name}, {} rows", table.rows()), &table, mode, &cells, table.rows(), cells.len());
        if cells.len() < 256 && table.rows() <= 1024 {
            dissolve_bytes("the same on bytes", &table, mode, &cells);
        }
    }
    for (name, mode, cells) in lists(big) {
        dissolve(&format!("dissolve, {name}, {} rows", big.table.rows()), &big.table, mode, &cells, 65_536, 16_384);
    }
}

fn checks(big: &Given) {
    heading("plain read");
    open(&big.table);
    offer(big);
}

fn walks() {
    heading("Rust");
    for (name, cell) in [("hexagon", 0x0800_1fff_ffff_ffff), ("pentagon", 0x0800_9fff_ffff_ffff)] {
        for target in [0, 1, 7, 14] {
            walk(&format!("walk, {name} of resolution 0 to {target}"), cell, target);
        }
    }
}

/// An outline's edges, by exclusive or: the time of one edge, with its share of the walk's start.
#[cfg(h3o)]
fn walk(name: &str, cell: u64, target: u32) {
    use oracle::{CellIndex, Resolution};
    let resolution = Resolution::new(target as u8).expect("a resolution is at most 15");
    let outline = || CellIndex(black_box(cell)).outline(resolution);
    let rust = || outline().fold(0, |edges, edge| edges ^ edge.0);
    if subject::walk(cell, target) != Some(rust()) {
        println!("{name}: target/staticlib/libwalk_timing.a was not there when this was built, or walks otherwise");
        return;
    }
    // Short walks are repeated, so that the clock counts for little.
    let edges = outline().count() as u32;
    let repeats = 1 + 20_000 / edges;
    let library = || time(|| (0..repeats).fold(0, |sum, _| sum ^ subject::walk(black_box(cell), target).unwrap_or(0)));
    let theirs = || time(|| (0..repeats).fold(0, |sum, _| sum ^ rust()));
    let (library, theirs) = least_in_turn(library, theirs);
    let each = |time: Duration| time.as_secs_f64() * 1e9 / f64::from(edges * repeats);
    line_for_each(&format!("{name}, an edge"), each(library), each(theirs), "ns");
}

#[cfg(not(h3o))]
fn walk(_: &str, _: u64, _: u32) {}

/// What is dissolved: its name, the mode, the cells.
fn lists(big: &Given) -> [(&'static str, u32, Vec<u64>); 6] {
    [
        ("140 cells of a disk", 0, disk(big, 140)),
        ("200 cells of a disk", 0, disk(big, 200)),
        ("5,000 cells of a disk", 0, disk(big, 5000)),
        ("10,000 cells of a disk, shuffled", 0, shuffled(disk(big, 10_000))),
        ("2,720 cells that don't touch", 0, scattered(big, &disk(big, 16_384))),
        ("150 mixed cells", 1, mixed(big, 150, &mut Random::new(1))),
    ]
}

fn shuffled(mut cells: Vec<u64>) -> Vec<u64> {
    Random::new(1).shuffle(&mut cells);
    cells
}

fn heading(other: &str) {
    println!("{:<56}{:>12}{other:>12}{:>8}", "", "library", "ratio");
}

fn line(name: &str, (library, other): (Duration, Duration)) {
    line_for_each(name, library.as_secs_f64() * 1e6, other.as_secs_f64() * 1e6, "us");
}

fn line_for_each(name: &str, library: f64, other: f64, unit: &str) {
    println!("{name:<56}{library:>9.1} {unit}{other:>9.1} {unit}{:>8.2}", library / other);
}

fn dissolve(name: &str, table: &Table, mode: u32, cells: &[u64], slots: usize, places: usize) {
    let mut memory = Memory::opened(0, table.rows(), slots, places);
    let mut out = Outputs::new(table.rows(), table.rows());
    let library =
        || time(|| assert_eq!(exports::dissolve(table, &mut memory, cells, &mut out, mode.into()), 0, "{name}"));
    line(name, beside_the_rust(table, mode, cells, library));
}

fn dissolve_bytes(name: &str, table: &Table, mode: u32, cells: &[u64]) {
    let (rows, list) = (table_bytes(table), cell_bytes(cells));
    let mut out = vec![0; HEAD + 24 * table.rows()];
    let library = || time(|| assert_eq!(subject::dissolve(&rows, &list, &mut out, mode, 1024, 256), 0, "{name}"));
    line(name, beside_the_rust(table, mode, cells, library));
}

#[cfg(h3o)]
fn beside_the_rust(table: &Table, mode: u32, cells: &[u64], library: impl FnMut() -> Duration) -> (Duration, Duration) {
    use oracle::{CellIndex, Resolution, dissolve::Mode};
    let lent = oracle::table::Table::new(table.edges.clone(), table.reverse.clone(), table.area.clone());
    let lent = lent.expect("a table that passes the check");
    let target = Resolution::new(table.target() as u8).expect("a resolution is at most 15");
    let solvent = if mode == 1 { Mode::Mixed(target) } else { Mode::Even }.solvent();
    let rust = || time(|| solvent.dissolve(cells.iter().map(|cell| CellIndex(*cell))));
    oracle::table::lend(&lent, || least_in_turn(library, rust))
}

#[cfg(not(h3o))]
fn beside_the_rust(_: &Table, _: u32, _: &[u64], _: impl FnMut() -> Duration) -> (Duration, Duration) {
    (Duration::ZERO, Duration::ZERO)
}

/// Open, which checks the table and clears the memory.
fn open(table: &Table) {
    let mut memory = Memory::opened(0, table.rows(), 1, 1);
    let library = || time(|| assert_eq!(exports::open(table, &mut memory, 0), 0, "the table passes"));
    let read = || time(|| read_table(black_box(table)));
    line(&format!("open: the table's check, {} rows", table.rows()), least_in_turn(library, read));
}

/// One cell more, that takes the last free slots, offered to a state of cells of which no two touch.
fn offer(big: &Given) {
    let table = &big.table;
    let cells = scattered(big, &disk(big, 9000));
    let (last, held) = cells.split_last().expect("a table has cells");
    let mut memory = Memory::opened(0, table.rows(), 6 * cells.len(), cells.len());
    let mut out = Outputs::new(table.rows(), table.rows());
    assert_eq!(exports::dissolve(table, &mut memory, held, &mut out, 0), 0, "scattered cells are accepted");
    let nearly_full = memory.clone();
    let library = || {
        memory.clone_from(&nearly_full);
        time(|| assert_eq!(exports::offer(table, &mut memory, *last), 0, "the last cell is accepted"))
    };
    let read = || time(|| read_table(black_box(table)) ^ read_memory(black_box(&nearly_full)));
    let name = format!("offer: {} rows, {} slots, {} cells", table.rows(), 6 * cells.len(), cells.len());
    line(&name, least_in_turn(library, read));
}

/// Every byte of a table, read once.
fn read_table(table: &Table) -> u64 {
    let area = table.area.iter().fold(0, |sum, term| sum ^ term.to_bits());
    area ^ wide(&table.edges) ^ u64::from(words(&table.reverse))
}

/// Every byte of a state.
fn read_memory(memory: &Memory) -> u64 {
    let m = memory;
    let slices =
        [&m.parent, &m.rank, &m.cell_mark, &m.slot_row, &m.slot_cell, &m.prev, &m.next, &m.row_slot, &m.row_mark];
    wide(&m.cells) ^ slices.iter().fold(0, |sum, numbers| sum ^ u64::from(words(numbers)))
}

fn wide(numbers: &[u64]) -> u64 {
    numbers.iter().fold(0, |sum, number| sum ^ number)
}

fn words(numbers: &[u32]) -> u32 {
    numbers.iter().fold(0, |sum, number| sum ^ number)
}
