//! "Area and order": rings with their areas, in polygons, in the order of the ring list.
use super::{memory::Memory, table::Table};
use std::{
    cmp::Ordering,
    collections::{BTreeMap, BTreeSet},
};

const FOUR_PI: f64 = f64::from_bits(0x4029_21FB_5444_2D18);

#[derive(Clone, Debug)]
pub struct Ring {
    /// From the lowest row on.
    pub rows: Vec<usize>,
    pub group: usize,
    pub area: f64,
}

impl Ring {
    /// Every NaN is written alike.
    pub fn area_bits(&self) -> u64 {
        if self.area.is_nan() { 0x7FF8_0000_0000_0000 } else { self.area.to_bits() }
    }
}

#[derive(Clone, Debug)]
pub enum ReadOut {
    Nothing,
    Closed,
    /// Polygons, each a list of rings, the outer first.
    Outline(Vec<Vec<Ring>>),
}

/// What a state shows: its used slots, next links and parents.
pub fn read(table: &Table, memory: &Memory) -> ReadOut {
    let held = (0..table.rows()).filter_map(|row| memory.slot_of(row).map(|slot| (row, slot)));
    let links = held.clone().filter_map(|(row, slot)| {
        let next = memory.row_in(memory.next[slot] as usize)?;
        Some((row, next))
    });
    let group = |row: &usize| {
        let slot = memory.slot_of(*row).expect("a row of a ring has a slot");
        let root = memory.root(memory.slot_cell[slot] as usize);
        (0..memory.held()).find(|place| memory.root(*place) == root).expect("a cell is in its own group")
    };
    put_together(table, memory.held(), &links.collect(), group)
}

/// The rings of `next`, a map from each standing row to its successor, with their areas and groups and in order.
pub fn put_together(
    table: &Table,
    held: usize,
    next: &BTreeMap<usize, usize>,
    group: impl Fn(&usize) -> usize,
) -> ReadOut {
    if held == 0 {
        return ReadOut::Nothing;
    }
    let mut seen = BTreeSet::new();
    let mut polygons = BTreeMap::<usize, Vec<Ring>>::new();
    for &lowest in next.keys() {
        if seen.contains(&lowest) {
            continue;
        }
        let rows = around(next, lowest);
        seen.extend(rows.iter().copied());
        let ring = Ring { area: area(table, &rows), group: group(&lowest), rows };
        polygons.entry(ring.group).or_default().push(ring);
    }
    if polygons.is_empty() {
        return ReadOut::Closed;
    }
    let mut polygons = polygons.into_values().collect::<Vec<_>>();
    for rings in &mut polygons {
        rings.sort_by(|a, b| compare(a.area, b.area).then(a.rows[0].cmp(&b.rows[0])));
    }
    polygons.sort_by(|p, q| compare(q[0].area, p[0].area).then(p[0].rows[0].cmp(&q[0].rows[0])));
    ReadOut::Outline(polygons)
}

fn around(next: &BTreeMap<usize, usize>, first: usize) -> Vec<usize> {
    let mut rows = vec![first];
    let mut at = next[&first];
    while at != first {
        rows.push(at);
        at = next[&at];
    }
    rows
}

/// The adder's two floats go from term to term; each operation rounds once.
pub fn area(table: &Table, rows: &[usize]) -> f64 {
    let add = |(sum, correction): (f64, f64), term: f64| {
        let mended = term - correction;
        let total = sum + mended;
        (total, (total - sum) - mended)
    };
    let mut adder = rows.iter().map(|row| table.area[*row]).fold((0., 0.), add);
    if adder.0 + adder.1 < 0. {
        adder = add(adder, FOUR_PI);
    }
    adder.0 + adder.1
}

/// Zeros equal, NaN equal to itself and above all.
fn compare(a: f64, b: f64) -> Ordering {
    a.partial_cmp(&b).unwrap_or_else(|| a.is_nan().cmp(&b.is_nan()))
}
