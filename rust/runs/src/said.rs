//! What the tools have to say of a table file and a list, at any size: the verdict on a list and the groups by the rules, the outline by the
//! definitions and the Rust alike. Of a tool's own words the decimals of an area and what a refusal means are left out; tests/full_size.sh
//! leaves them out of what the tool says too, and compares the rest.
use crate::{
    oracle_answer::{Compared, lent},
    rules::{
        Refusal, Verdict, afresh,
        bytes::table_of,
        cells::{is_cell, resolution},
        lists::{Kept, check_list},
        refuse,
        rings::{ReadOut, Ring},
        table::Table,
    },
};
use std::{collections::BTreeSet, fmt::Write as _, fs};

/// As many as a tool has places for.
const PLACES: usize = 16_384;

pub fn run(tool: &str, table: &str, list: &str) -> Result<(), String> {
    let read = |path: &str| fs::read(path).map_err(|error| format!("{path}: {error}"));
    let table = table_of(&read(table)?);
    table.check().map_err(|refusal| format!("the table is refused: {refusal:?}"))?;
    let lines = String::from_utf8(read(list)?).map_err(|error| format!("{list}: {error}"))?;
    let cells = lines.lines().filter_map(cell).collect::<Vec<_>>();
    let said = match tool {
        "outline" => dissolved(&table, list, Kept::Even, &cells, outline)?,
        "outline-mixed" => dissolved(&table, list, Kept::Mixed, &cells, outline)?,
        "till_import" => dissolved(&table, list, Kept::Even, &cells, zone)?,
        "year_audit" => audit(&table, &cells)?,
        _ => return Err(format!("no tool {tool}; see --help")),
    };
    print!("{said}");
    Ok(())
}

/// What stands on a line before a comment; the lists here have no other lines than cells and comments, and comments come last.
fn cell(line: &str) -> Option<u64> {
    let word = line.split('#').next().unwrap_or_default().trim();
    u64::from_str_radix(word.strip_prefix("0x").unwrap_or(word), 16).ok()
}

type Polygons = Vec<Vec<Ring>>;

/// An accepted list.
struct Zone<'a> {
    table: &'a Table,
    list: &'a str,
    cells: usize,
    polygons: Polygons,
}

fn dissolved(
    table: &Table,
    list: &str,
    kept: Kept,
    cells: &[u64],
    told: fn(&Zone) -> String,
) -> Result<String, String> {
    let refused = check_list(kept, table.target(), PLACES, cells).and_then(|()| check_outlines(table, cells));
    if let Err(Refusal { number, index }) = refused {
        return Ok(format!("{list} line {}: refused {number}\n", index + 1));
    }
    Ok(told(&Zone { table, list, cells: cells.len(), polygons: polygons(table, kept, cells)? }))
}

/// Refusal 5. A tool has as many slots as a table can have rows, so that 7 is never given.
fn check_outlines(table: &Table, cells: &[u64]) -> Verdict {
    cells.iter().position(|cell| !table.holds_outline(*cell)).map_or(Ok(()), |index| refuse(5, index))
}

/// What is defined, if the Rust answers the same.
fn polygons(table: &Table, kept: Kept, cells: &[u64]) -> Result<Polygons, String> {
    let defined = Ok(afresh::dissolve(table, cells).ok_or("an outline of an accepted cell is not there")?);
    let lent = lent(table).ok_or("the table breaks a rule")?;
    match (lent.compare(kept, table.target(), cells, &defined)?, defined) {
        (Compared::Same, Ok(ReadOut::Outline(polygons))) => Ok(polygons),
        _ => Err("a list at full size has an outline, and the Rust is asked for it".into()),
    }
}

impl Zone<'_> {
    fn rings(&self) -> usize {
        self.polygons.iter().map(Vec::len).sum()
    }

    fn standing(&self) -> usize {
        self.polygons.iter().flatten().map(|ring| ring.rows.len()).sum()
    }

    /// A ring's edges, each behind `gap`.
    fn edges(&self, ring: &Ring, gap: &str) -> String {
        ring.rows.iter().map(|row| format!("{gap}{:x}", self.table.edges[*row])).collect()
    }
}

fn kind(place: usize) -> &'static str {
    if place == 0 { "outer ring" } else { "inner ring" }
}

fn measure(ring: &Ring) -> String {
    format!("bits {:016x}, edges {}", ring.area_bits(), ring.rows.len())
}

fn outline(zone: &Zone) -> String {
    let mut said = format!("cells {}\npolygons {}\n", zone.cells, zone.polygons.len());
    said += &format!("rings {}\ntable edges {}\n", zone.rings(), zone.table.rows());
    said += &format!("standing edges {}\n", zone.standing());
    for rings in &zone.polygons {
        said += &format!("polygon of group {}\n", rings[0].group);
        for (place, ring) in rings.iter().enumerate() {
            said += &format!("  {}, {}{}\n", kind(place), measure(ring), zone.edges(ring, "\n    "));
        }
    }
    said
}

fn zone(zone: &Zone) -> String {
    let (rings, standing, first) = (zone.rings(), zone.standing(), zone.polygons[0][0].area_bits());
    let mut said = format!("{}: outline, cells {}, polygons {}", zone.list, zone.cells, zone.polygons.len());
    said += &format!(", rings {rings}, standing edges {standing}, first outer bits {first:016x}\n");
    for (place, ring) in zone.polygons.iter().flat_map(|rings| rings.iter().enumerate()) {
        let (group, edges) = (ring.group, zone.edges(ring, " "));
        said += &format!("{} of group {group}, {}:{edges}\n", kind(place), measure(ring));
    }
    said
}

/// A feed offered cell by cell in even mode: a set tells what is held.
fn audit(table: &Table, feed: &[u64]) -> Result<String, String> {
    let (mut held, mut accepted, mut refused) = (BTreeSet::new(), Vec::new(), [0; 11]);
    for cell in feed {
        let number = match *cell {
            cell if !is_cell(cell) => 2,
            cell if held.contains(&cell) => 3,
            cell if resolution(cell) != table.target() => 4,
            _ if held.len() == PLACES => 8,
            cell if !table.holds_outline(cell) => 5,
            _ => 0,
        };
        refused[number] += 1;
        if number == 0 {
            held.insert(*cell);
            accepted.push(*cell);
        }
    }
    let polygons = polygons(table, Kept::Even, &accepted)?;
    let (visits, replays) = (accepted.len(), refused[3]);
    let mut said = format!("offered {}\naccepted {visits}\n", feed.len());
    for (number, count) in refused.iter().enumerate().filter(|(number, count)| *number > 0 && **count > 0) {
        writeln!(said, "refused by {number}: {count}").map_err(|error| error.to_string())?;
    }
    let rings = polygons.iter().map(Vec::len).sum::<usize>();
    said += &format!("replays that would each have drawn a second outline {replays}\n");
    said += &format!("standing outline: polygons {}, rings {rings}\n", polygons.len());
    said += "dissolved afresh from the accepted cells: the same\n";
    said += &format!("one visit to each held cell: visits {visits}\n");
    said += &format!("points credited without the check {}\n", visits + replays);
    said += &format!("points credited here {visits}\npoints over 0\n");
    Ok(said)
}
