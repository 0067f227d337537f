//! Damaged copies of a good table, each with one fault or a few.
use crate::{random::Random, rules::table::Table};

/// One fault, of a kind that the rules name or that they don't.
pub fn damage(table: &mut Table, random: &mut Random) {
    let row = random.below(table.rows());
    let other = random.below(table.rows());
    match random.below(15) {
        0 => table.edges[row] ^= 1 << random.below(64),
        1 => table.edges[row] = random.number(),
        2 => table.edges.swap(row, other),
        3 => table.edges[row] = table.edges[other],
        4 => table.edges[row] = table.edges[row].wrapping_add(1 << 52),
        5 => table.reverse[row] = table.rows() as u32,
        6 => table.reverse[row] = random.number() as u32,
        7 => table.reverse[row] = row as u32,
        8 => table.reverse[row] = other as u32,
        9 => table.reverse.swap(row, other),
        10 => table.area[row] = random.of(&[f64::NAN, f64::INFINITY, f64::NEG_INFINITY, -f64::NAN]),
        11 => table.area[row] = random.of(&[f64::MAX, f64::MIN, f64::MIN_POSITIVE, 5e-324]),
        12 => remove_last(table),
        // No base cell past 121: the last row's stays in order.
        13 => *table.edges.last_mut().expect("a table to damage has rows") |= 0x7e << 45,
        // Another resolution, in every row alike: each stays below a valid edge only where its digits fit.
        _ => table.edges.iter_mut().for_each(|edge| *edge ^= 1 << 52),
    }
}

fn remove_last(table: &mut Table) {
    table.edges.pop();
    table.reverse.pop();
    table.area.pop();
}
