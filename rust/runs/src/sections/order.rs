//! The same cells in another order, and with replays: the library's outputs against each other.
use super::{Context, PLACES, Report, SLOTS, good_list};
use crate::{
    rules::{
        bytes::{HEAD, table_bytes},
        memory::Memory,
    },
    subject,
    tables::Given,
};
use std::collections::BTreeMap;

pub fn run(context: &mut Context, report: &mut Report) -> Result<(), String> {
    let tables = context.regular_tables()?;
    for round in 0..context.rounds(400) {
        report.problem();
        let random = &mut context.random;
        let given = &tables[round % tables.len()];
        let mixed = random.one_in(2);
        let list = good_list(given, mixed, 40, random);
        let mut other = list.clone();
        random.shuffle(&mut other);
        let mut replayed = Vec::new();
        for (i, cell) in list.iter().enumerate() {
            replayed.push(*cell);
            replayed.push(list[random.below(i + 1)]);
        }
        let [(taken, state, out), (other_taken, _, other_out), (replayed_taken, replayed_state, _)] =
            [&list, &other, &replayed].map(|cells| outcome(given, mixed, cells));
        let words = || format!("{}, {} mode, cells {list:016x?}", given.name, if mixed { "mixed" } else { "even" });
        if [taken, other_taken, replayed_taken] != [Some(list.len()); 3] {
            return Err(format!("order: a cell of a good list is refused, or a replay accepted: {}", words()));
        }
        if state != replayed_state {
            return Err(format!("order: a replay left something behind: {}", words()));
        }
        if shape(&out) != shape(&other_out) {
            return Err(format!("order: another order gives another outline: {}\nother order {other:016x?}", words()));
        }
        report.counts.add("lists in another order");
        report.counts.add("lists with replays");
    }
    Ok(())
}

/// How many of these offers are accepted, where the others are refused as replays and the two other calls are carried out; state and
/// output afterwards.
fn outcome(given: &Given, mixed: bool, cells: &[u64]) -> (Option<usize>, Vec<u8>, Vec<u8>) {
    let table = table_bytes(&given.table);
    let mut state = vec![0; Memory::bytes(given.table.rows(), SLOTS as usize, PLACES as usize)];
    let mut out = vec![0; HEAD + 24 * given.table.rows()];
    let mut call = |call: u32, value: u64| subject::standing(&table, &mut state, &mut out, SLOTS, PLACES, call, value);
    let opened = call(0, mixed.into());
    let offered = cells.iter().map(|cell| call(1, *cell)).collect::<Vec<_>>();
    let read = call(2, 0);
    let as_expected = opened == 0 && read == 0 && offered.iter().all(|answer| [0, 3].contains(&(answer >> 32)));
    let taken = offered.iter().filter(|answer| **answer == 0).count();
    (as_expected.then_some(taken), state, out)
}

/// The output with its groups, which are numbered by places, numbered by their first ring.
fn shape(out: &[u8]) -> Vec<u8> {
    let mut shape = out.to_vec();
    let rings = u32::from_le_bytes(out[8..12].try_into().expect("four bytes"));
    let mut numbers = BTreeMap::new();
    for ring in 0..rings as usize {
        let at = HEAD + 20 * ring + 8;
        let next = numbers.len() as u32;
        let number = *numbers.entry(out[at..at + 4].to_vec()).or_insert(next);
        shape[at..at + 4].copy_from_slice(&number.to_le_bytes());
    }
    shape
}
