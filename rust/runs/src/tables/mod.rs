//! Tables for the runs: real ones from files, hand-made ones, and damaged copies.
pub mod damaged;
pub mod odd;
pub mod real;
pub mod regions;
pub mod torus;

use crate::{
    random::Random,
    rules::{
        cells::{owner, resolution},
        table::Table,
    },
};
use std::collections::BTreeSet;
use torus::ancestor;

/// A table with what the runs need to know of it.
pub struct Given {
    pub name: String,
    pub table: Table,
    /// The cells of the table's resolution whose whole outline is in it.
    pub cells: Vec<u64>,
    /// The coarser ones.
    pub coarser: Vec<u64>,
}

impl Given {
    pub fn new(name: impl Into<String>, table: Table) -> Self {
        let owners = table.edges.iter().map(|edge| owner(*edge)).collect::<BTreeSet<_>>();
        let ancestors = owners.iter().flat_map(|cell| (0..resolution(*cell)).map(|r| ancestor(*cell, r)));
        let fits = |cell: &u64| {
            5 * 3_usize.pow(table.target() - resolution(*cell)) <= table.rows() && table.holds_outline(*cell)
        };
        let coarser = ancestors.collect::<BTreeSet<_>>().into_iter().filter(fits).collect();
        let cells = owners.into_iter().filter(fits).collect();
        Self { name: name.into(), table, cells, coarser }
    }

    /// Other terms: few values, so that areas tie; or huge ones, whose sums overflow; or ones below the normal range.
    pub fn with_other_terms(mut self, random: &mut Random) -> Self {
        let kind = random.below(3);
        for term in &mut self.table.area {
            let any = random.term();
            *term = match kind {
                0 => random.of(&[0., -0., 0.5, -0.5, 0.25]),
                1 if random.one_in(8) => any * f64::MAX,
                2 if random.one_in(2) => any * f64::MIN_POSITIVE,
                _ => any,
            };
        }
        self
    }
}

/// The table of these edges and their pairs: rows ascending, each with its term.
pub fn table_of_pairs(pairs: &[(u64, u64)], mut term: impl FnMut(usize) -> f64) -> Table {
    let mut edges = pairs.iter().flat_map(|(a, b)| [*a, *b]).collect::<Vec<_>>();
    edges.sort_unstable();
    let row = |edge: u64| edges.binary_search(&edge).expect("the edge of a pair has a row");
    let mut reverse = vec![0; edges.len()];
    for (a, b) in pairs {
        reverse[row(*a)] = row(*b) as u32;
        reverse[row(*b)] = row(*a) as u32;
    }
    let area = (0..edges.len()).map(&mut term).collect();
    Table { edges, reverse, area }
}

/// The part of a table that the rows `keep` and their reverses make, with the terms they had.
pub fn part(table: &Table, keep: impl Fn(usize) -> bool) -> Table {
    let rows = (0..table.rows()).filter(|row| keep(*row) || keep(table.reverse_of(*row))).collect::<Vec<_>>();
    let place = |row: usize| rows.binary_search(&row).expect("a reverse is kept too") as u32;
    Table {
        edges: rows.iter().map(|row| table.edges[*row]).collect(),
        reverse: rows.iter().map(|row| place(table.reverse_of(*row))).collect(),
        area: rows.iter().map(|row| table.area[*row]).collect(),
    }
}
