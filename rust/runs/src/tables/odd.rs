//! Odd tables: every rule of the table holds, but the pairs make no surface. Random pairings, and pairings by name.
use super::{Given, table_of_pairs, torus::base_cell};
use crate::{
    random::Random,
    rules::{
        cells::{edge, is_pentagon},
        table::Table,
    },
};

/// The edges of `cells`, paired at random; one is left out where they are odd in number.
pub fn random_pairs(cells: &[u64], random: &mut Random) -> Given {
    let mut edges = cells.iter().flat_map(|cell| edges_of(*cell)).collect::<Vec<_>>();
    random.shuffle(&mut edges);
    let pairs = edges.chunks_exact(2).map(|pair| (pair[0], pair[1])).collect::<Vec<_>>();
    Given::new("random pairs", table_of_pairs(&pairs, |_| random.term()))
}

fn edges_of(cell: u64) -> impl Iterator<Item = u64> {
    let lowest = if is_pentagon(cell) { 2 } else { 1 };
    (lowest..=6).map(move |number| edge(cell, number))
}

/// The cell of a name's letter: P and Q are the base cells 4 and 14, pentagons; X and Y are base cells 17 and 18; A is base cell 0, B is 1, and
/// so on to H, which is 7.
pub fn cell_of(letter: char) -> u64 {
    base_cell(match letter {
        'P' => 4,
        'Q' => 14,
        'X' | 'Y' => 17 + letter as u64 - 'X' as u64,
        _ => letter as u64 - 'A' as u64,
    })
}

/// The table of named pairs, such as `A3-A5 A1-B3`: a letter for the cell, the edge's number. The terms are 1/64, 2/64, ... in row order.
pub fn named(pairs: &str) -> Table {
    let named_edge = |name: &str| {
        let mut letters = name.chars();
        let cell = letters.next().map(cell_of).expect("a name has a letter");
        edge(cell, letters.as_str().parse().expect("a name ends with an edge's number"))
    };
    let pairs = pairs.split_whitespace().filter_map(|pair| pair.split_once('-'));
    let pairs = pairs.map(|(a, b)| (named_edge(a), named_edge(b))).collect::<Vec<_>>();
    table_of_pairs(&pairs, |row| (row + 1) as f64 / 64.)
}
