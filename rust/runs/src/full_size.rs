//! The files of tests/full_size.sh: tables and lists at the bounds of what the tools take, made from the largest real table.
use crate::{
    random::Random,
    rules::bytes::table_bytes,
    tables::{
        Given,
        real::Folder,
        regions::{apart, disk, elsewhere, mixed, scattered, with_more_pairs},
        torus::ancestor,
    },
};
use std::{fs, path::Path};

/// A file's room in a tool, and a report's.
const ROOM: usize = 1_441_792;
/// As many cells that do not touch as 65,536 rows have room for: each has twelve, its edges and their reverses.
const MOST_APART: usize = 5_461;
/// As many cells as a list may have, and a feed.
const MOST_CELLS: usize = 16_384;
const MOST_OFFERED: usize = 65_536;

pub fn write(folder: &Folder, to: &str) -> Result<(), String> {
    let big = Given::new("big_r9", folder.read("big_r9")?);
    let write = |name: &str, bytes: &[u8]| {
        let path = Path::new(to).join(name);
        fs::write(&path, bytes).map_err(|error| format!("{}: {error}", path.display()))
    };
    write("big.table", &table_bytes(&big.table))?;
    let full = table_bytes(&with_more_pairs(&big.table, 1));
    write("full.table", &full)?;
    write("long.table", &[full.as_slice(), &[0]].concat())?;
    let (table, cells) = apart(&big.table, MOST_APART);
    write("apart.table", &table_bytes(&table))?;
    write("apart.cells", text(&cells).as_bytes())?;
    for (name, list) in lists(&big) {
        write(name, text(&list).as_bytes())?;
    }
    let room = padded(text(&zone(&big)));
    write("room.cells", room.as_bytes())?;
    write("long.cells", format!("{room}\n").as_bytes())
}

/// 10,000 cells of a disk, in which every 21st is left out.
fn zone(big: &Given) -> Vec<u64> {
    disk(big, 10_500).chunks(21).flat_map(|part| part[1..].to_vec()).collect()
}

fn lists(big: &Given) -> Vec<(&'static str, Vec<u64>)> {
    let zone = zone(big);
    // Every cell of the table, then such as are not in it.
    let elsewhere = elsewhere(MOST_CELLS + 1);
    let most = [big.cells.as_slice(), &elsewhere].concat()[..MOST_CELLS].to_vec();
    let equal = [&most[..MOST_CELLS - 1], &most[..1]].concat();
    vec![
        ("scattered.cells", scattered(big, &zone)),
        ("mixed.cells", mixed(big, 150, &mut Random::new(1))),
        ("whole.cells", big.cells.clone()),
        ("last.cells", [big.cells.as_slice(), &elsewhere[..1]].concat()),
        ("most.cells", most.clone()),
        ("equal.cells", equal),
        ("many.cells", [most.as_slice(), &elsewhere[MOST_CELLS..=MOST_CELLS]].concat()),
        ("year.feed", feed(&zone, &elsewhere)),
        ("long.feed", vec![zone[0]; MOST_OFFERED + 1]),
        ("zone.cells", zone),
    ]
}

/// 20,000 offers: after every ten cells the broker restarts and sends nine of all that came again; then comes a number that is a coarser
/// cell, a cell elsewhere, or no cell.
fn feed(zone: &[u64], elsewhere: &[u64]) -> Vec<u64> {
    let mut random = Random::new(1);
    let mut feed = Vec::new();
    for (number, part) in zone.chunks(10).enumerate() {
        feed.extend(part);
        for _ in 0..9 {
            feed.push(random.of(&zone[..10 * number + part.len()]));
        }
        feed.push(match number % 3 {
            0 => ancestor(part[0], 8),
            1 => elsewhere[number],
            _ => part[0] ^ 1 << 63,
        });
    }
    feed
}

fn text(cells: &[u64]) -> String {
    cells.iter().map(|cell| format!("{cell:x}\n")).collect()
}

/// The same with a comment behind it that fills the room to its last byte.
fn padded(list: String) -> String {
    let comment = "#".repeat(ROOM - list.len() - 1);
    format!("{list}{comment}\n")
}
