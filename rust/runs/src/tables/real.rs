//! Real H3 tables, read from CSV files: edge, reverse row, bits of the term. Where a row has two terms, the first alone is used.
use super::{Given, part};
use crate::{
    random::Random,
    rules::{bytes::MOST_ROWS, table::Table},
};
use std::{
    collections::BTreeSet,
    fs,
    path::{Path, PathBuf},
};

/// The tables that are small enough for the byte entry points.
const SMALL: [&str; 4] = ["seven_r9", "world_r0", "pent_r2", "pent_r3_face"];

pub struct Folder(pub PathBuf);

impl Folder {
    pub fn read(&self, name: &str) -> Result<Table, String> {
        let path = self.0.join(format!("{name}.csv"));
        let text = fs::read_to_string(&path).map_err(|error| format!("{}: {error}", path.display()))?;
        parse(&text).ok_or_else(|| format!("{}: not a table", path.display()))
    }

    /// The small tables, and parts of a larger one: disks around a random cell.
    pub fn small(&self, random: &mut Random) -> Result<Vec<Given>, String> {
        let mut tables = Vec::new();
        for name in SMALL {
            tables.push(Given::new(name, self.read(name)?));
        }
        let disk = Given::new("disk_r9_k10", self.read("disk_r9_k10")?);
        for _ in 0..2 {
            let centre = random.of(&disk.cells);
            tables.push(Given::new(format!("part of disk_r9_k10 around {centre:016x}"), around(&disk, centre)));
        }
        Ok(tables)
    }

    pub fn is_there(&self) -> bool {
        Path::exists(&self.0.join("seven_r9.csv"))
    }
}

fn parse(text: &str) -> Option<Table> {
    let mut table = Table { edges: Vec::new(), reverse: Vec::new(), area: Vec::new() };
    for line in text.lines().skip(1) {
        let mut fields = line.split(',');
        table.edges.push(u64::from_str_radix(fields.next()?, 16).ok()?);
        table.reverse.push(fields.next()?.parse().ok()?);
        table.area.push(f64::from_bits(u64::from_str_radix(fields.next()?, 16).ok()?));
    }
    Some(table)
}

/// The rows of as many cells around `centre`, nearest first, as fit with their reverses.
fn around(given: &Given, centre: u64) -> Table {
    let table = &given.table;
    let mut reached = vec![centre];
    let mut rows = BTreeSet::new();
    let mut next = 0;
    while next < reached.len() {
        let own = table.outline(reached[next]).into_iter().flatten().collect::<Vec<_>>();
        let more = own.iter().flat_map(|row| [*row, table.reverse_of(*row)]).filter(|row| !rows.contains(row));
        if rows.len() + more.clone().count() > MOST_ROWS {
            break;
        }
        rows.extend(more.collect::<Vec<_>>());
        for row in own {
            let neighbour = crate::rules::cells::owner(table.edges[table.reverse_of(row)]);
            if given.cells.contains(&neighbour) && !reached.contains(&neighbour) {
                reached.push(neighbour);
            }
        }
        next += 1;
    }
    part(table, |row| rows.contains(&row))
}
