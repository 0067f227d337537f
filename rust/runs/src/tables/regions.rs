//! Cells of a large table: those around one, some that don't touch, some of several resolutions; and cells and edges elsewhere.
use super::{
    Given, table_of_pairs,
    torus::{base_cell, child},
};
use crate::{
    random::Random,
    rules::{
        cells::{edge, lies_under, owner, resolution},
        table::Table,
    },
};
use std::collections::BTreeSet;

/// The cells around one in the middle, nearest first.
pub fn disk(given: &Given, count: usize) -> Vec<u64> {
    let known = given.cells.iter().copied().collect::<BTreeSet<_>>();
    let mut cells = vec![given.cells[given.cells.len() / 2]];
    let mut reached = cells.iter().copied().collect::<BTreeSet<_>>();
    let mut next = 0;
    while cells.len() < count && next < cells.len() {
        for cell in neighbours(given, cells[next]) {
            if known.contains(&cell) && reached.insert(cell) {
                cells.push(cell);
            }
        }
        next += 1;
    }
    cells.truncate(count);
    cells
}

/// Cells of the list of which no two touch.
pub fn scattered(given: &Given, list: &[u64]) -> Vec<u64> {
    let mut touched = BTreeSet::new();
    let mut cells = Vec::new();
    for cell in list {
        if !touched.contains(cell) {
            cells.push(*cell);
            touched.extend(neighbours(given, *cell));
        }
    }
    cells
}

/// Cells of the table's resolution and of the two above it.
pub fn mixed(given: &Given, count: usize, random: &mut Random) -> Vec<u64> {
    let near = |cell: &u64| resolution(*cell) + 2 >= given.table.target();
    let near = given.coarser.iter().copied().filter(near).collect::<Vec<_>>();
    let mut cells = Vec::<u64>::new();
    while cells.len() < count {
        let cell = if random.one_in(2) { random.of(&near) } else { random.of(&given.cells) };
        if cells.iter().all(|other| *other != cell && !lies_under(*other, cell) && !lies_under(cell, *other)) {
            cells.push(cell);
        }
    }
    cells
}

fn neighbours(given: &Given, cell: u64) -> Vec<u64> {
    let rows = given.table.outline(cell).into_iter().flatten();
    rows.map(|row| owner(given.table.edges[given.table.reverse_of(row)])).collect()
}

/// The first cells of a resolution under a coarser one, by their numbers.
pub fn under(top: u64, target: u32, count: usize) -> Vec<u64> {
    let digit = |n: usize, level: u32| (n / 7_usize.pow(target - level) % 7) as u64;
    let cell = |n: usize| (resolution(top) + 1..=target).fold(top, |cell, level| child(cell, level, digit(n, level)));
    (0..count).map(cell).collect()
}

/// Cells of the last base cell, of which no table here has one.
pub fn elsewhere(count: usize) -> Vec<u64> {
    under(base_cell(121), 9, count)
}

/// A table of resolution 9 with so many more pairs, of edges elsewhere, whose numbers come after all others.
pub fn with_more_pairs(table: &Table, count: usize) -> Table {
    let rows = (0..table.rows()).filter(|row| *row < table.reverse_of(*row));
    let mut pairs = rows.map(|row| (table.edges[row], table.edges[table.reverse_of(row)])).collect::<Vec<_>>();
    pairs.extend(elsewhere(2 * count).chunks_exact(2).map(|cells| (edge(cells[0], 6), edge(cells[1], 6))));
    table_of_pairs(&pairs, |row| table.area.get(row).copied().unwrap_or(0.))
}

/// So many cells elsewhere, and a table of their edges with the area terms of another: each edge's reverse is one of a cell beside them that is
/// not among them, so that no two touch.
pub fn apart(table: &Table, count: usize) -> (Table, Vec<u64>) {
    let cells = elsewhere(2 * count);
    let both = cells.chunks_exact(2);
    let pairs =
        both.flat_map(|two| (1..=6).map(|number| (edge(two[0], number), edge(two[1], number)))).collect::<Vec<_>>();
    let taken = cells.iter().copied().step_by(2).collect();
    (table_of_pairs(&pairs, |row| table.area[row]), taken)
}
