//! The search for the smallest tables on which the Rust's answer is not the defined one. Every pairing of the edges of one cell and of two is
//! tried, an edge with another of them or with one of a cell that isn't taken; fewest cells first, then fewest pairs, then in the order of the
//! edges. Three cells, or one that is coarser than the table, have fifteen edges at least, which make eight pairs: more than any of those found.
//!
//! Whether the Rust ends is told by its own links, which `probe` shows. Where it does, it is asked, and has to answer what they say.
use super::{
    Report,
    smallest::{NO_END, ODDITIES, Oddity, Rings, answered, defined, words},
};
use crate::{
    rules::table::Table,
    tables::odd::{cell_of, named},
};
use std::collections::{BTreeMap, BTreeSet};

/// The taken cells: hexagons and pentagons, in either order, since the Rust takes them by their numbers.
const TAKEN: [&str; 6] = ["A", "P", "AB", "AP", "PH", "PQ"];

/// An edge of the taken cells and its partner among them; none where that is an edge of a cell that isn't taken.
type Pair = (usize, Option<usize>);

/// The first table of each kind.
type Firsts = BTreeMap<&'static str, [String; 4]>;

pub fn run() -> Result<(), String> {
    let mut report = Report::new("odd-search");
    let mut firsts = Firsts::new();
    for (_, pairs, taken) in smallest_first() {
        let edges = edges_of(taken);
        let free = (0..edges.len()).collect::<Vec<_>>();
        every_pairing(&free, edges.len() - pairs, &mut Vec::new(), &mut |pairing| {
            report.problem();
            let kind = tried(spelled(&edges, pairing), taken, &mut firsts)?;
            report.counts.add(kind);
            Ok(())
        })?;
    }
    compare(&firsts)?;
    report.close(false)
}

/// How many cells, how many pairs, which cells. So many edges make between half as many pairs and as many.
fn smallest_first() -> Vec<(usize, usize, &'static str)> {
    let sizes = TAKEN.iter().flat_map(|taken| {
        let edges = edges_of(taken).len();
        (edges.div_ceil(2)..=edges).map(|pairs| (taken.len(), pairs, *taken))
    });
    let mut sizes = sizes.collect::<Vec<_>>();
    sizes.sort_unstable();
    sizes
}

fn edges_of(cells: &str) -> Vec<String> {
    let lowest = |cell: char| if "PQ".contains(cell) { 2 } else { 1 };
    cells.chars().flat_map(|cell| (lowest(cell)..=6).map(move |number| format!("{cell}{number}"))).collect()
}

/// Every pairing of the free edges, so many of them joined two by two.
fn every_pairing(
    free: &[usize],
    joined: usize,
    pairing: &mut Vec<Pair>,
    visit: &mut impl FnMut(&[Pair]) -> Result<(), String>,
) -> Result<(), String> {
    let Some((first, others)) = free.split_first() else {
        return visit(pairing);
    };
    let partners = if joined > 0 { others.len() } else { 0 };
    for i in 0..partners {
        pairing.push((*first, Some(others[i])));
        every_pairing(&[&others[..i], &others[i + 1..]].concat(), joined - 1, pairing, visit)?;
        pairing.pop();
    }
    if free.len() > 2 * joined {
        pairing.push((*first, None));
        every_pairing(others, joined, pairing, visit)?;
        pairing.pop();
    }
    Ok(())
}

/// As `named` takes it; X and Y are not taken.
fn spelled(edges: &[String], pairing: &[Pair]) -> String {
    let mut others = "XY".chars().flat_map(|cell| (1..=6).map(move |number| format!("{cell}{number}")));
    let mut partner = |of: Option<usize>| of.map_or_else(|| others.next(), |edge| Some(edges[edge].clone()));
    let pairs = pairing.iter().map(|(edge, of)| format!("{}-{}", edges[*edge], partner(*of).unwrap_or_default()));
    pairs.collect::<Vec<_>>().join(" ")
}

/// The kind of a table, which is noted where it is the first.
fn tried(pairs: String, taken: &'static str, firsts: &mut Firsts) -> Result<&'static str, String> {
    let table = named(&pairs);
    let cells = taken.chars().map(cell_of).collect::<Vec<_>>();
    let (defined, rust) = (defined(&table, &cells)?, linked(&table, &cells)?);
    if let Some(rings) = &rust {
        let answered = answered(&table, &cells)?;
        if answered != *rings {
            return Err(format!("odd-search: {pairs}: the links make {rings:?}, the Rust answers {answered:?}"));
        }
    }
    let kind = kind(&defined, rust.as_ref());
    let rust = rust.as_ref().map_or_else(|| NO_END.into(), words);
    firsts.entry(kind).or_insert_with(|| [pairs, taken.into(), words(&defined), rust]);
    Ok(kind)
}

/// The rings that the Rust would make of its links; none where it would not end, since they never come back to where a ring began.
fn linked(table: &Table, cells: &[u64]) -> Result<Option<Rings>, String> {
    let lent = oracle::table::Table::new(table.edges.clone(), table.reverse.clone(), table.area.clone());
    let arcs = lent.and_then(|lent| probe::arcs(&lent, cells, table.target())).ok_or("an odd table can be lent")?;
    let mut visited = BTreeSet::<u64>::new();
    let mut rings = Rings::new();
    for start in &arcs {
        if start.removed || visited.contains(&start.edge) {
            continue;
        }
        let mut ring = vec![start.edge];
        let mut at = &arcs[start.next];
        while at.edge != start.edge {
            if ring.len() > arcs.len() {
                return Ok(None);
            }
            ring.push(at.edge);
            at = &arcs[at.next];
        }
        visited.extend(&ring);
        rings.insert(from_the_lowest(ring.iter().filter_map(|edge| table.row(*edge)).collect()));
    }
    Ok(Some(rings))
}

fn from_the_lowest(mut rows: Vec<usize>) -> Vec<usize> {
    let lowest = (0..rows.len()).min_by_key(|i| rows[*i]).unwrap_or(0);
    rows.rotate_left(lowest);
    rows
}

/// How the Rust's rings differ from the defined ones; none, where it does not end.
fn kind(defined: &Rings, rust: Option<&Rings>) -> &'static str {
    let Some(rust) = rust else {
        return if defined.is_empty() { "no-end" } else { "self-stitch" };
    };
    let lost = defined.difference(rust).map(Vec::len).collect::<BTreeSet<_>>();
    let invents = rust.difference(defined).next().is_some();
    match (lost.first(), lost.last(), invents) {
        (None, _, false) => "as defined",
        (None, _, true) => "invented-rings",
        (_, Some(1), false) => "ring-of-one",
        (Some(2), Some(2), false) => "ring-of-two",
        (Some(3..), _, false) => "ring-left-out",
        _ => "several at once",
    }
}

/// The first of each kind are those of `smallest`.
fn compare(firsts: &Firsts) -> Result<(), String> {
    for (name, [pairs, cells, defined, rust]) in firsts {
        let found = Oddity { name, pairs, cells, defined, rust };
        println!("first {name}: {pairs}, cells {cells}, defined {defined}, the Rust {rust}");
        if ODDITIES.iter().any(|oddity| oddity.name == *name && *oddity != found) {
            return Err(format!("odd-search: another table than that of the list is the first {name}"));
        }
    }
    let missing = ODDITIES.iter().find(|oddity| !firsts.contains_key(oddity.name));
    missing.map_or(Ok(()), |oddity| Err(format!("odd-search: no table is a {}", oddity.name)))
}
