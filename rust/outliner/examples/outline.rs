//! The outline of a zone: `cargo run --offline -p outliner --example outline -- ../samples/city.table ../samples/zone.cells`
//!
//! The table has rows of 20 bytes (edge, row of its reverse, bits of its area term, least byte first); the list has a cell a line in
//! hexadecimal, with or without 0x, and what # begins is passed over. samples/README.md says more.
use outliner::{Dissolution, EdgeTable, Polygon, SolventBuilder};
use std::{env, error::Error, fs, process::ExitCode};

/// The radius of the earth that H3 takes, in kilometres.
const RADIUS: f64 = 6_371.007_180_918_475;

fn table(bytes: &[u8]) -> Option<EdgeTable> {
    let mut columns = (Vec::new(), Vec::new(), Vec::new());
    for row in bytes.chunks(20) {
        columns.0.push(u64::from_le_bytes(row.get(0..8)?.try_into().ok()?));
        columns.1.push(u32::from_le_bytes(row.get(8..12)?.try_into().ok()?));
        columns.2.push(f64::from_bits(u64::from_le_bytes(row.get(12..20)?.try_into().ok()?)));
    }
    Some(EdgeTable::new(columns.0, columns.1, columns.2))
}

/// What stands on a line before its comment.
fn word(line: &str) -> &str {
    line.split('#').next().unwrap_or_default().trim()
}

fn cells(text: &str) -> Result<Vec<u64>, std::num::ParseIntError> {
    let words = text.lines().map(word).filter(|word| !word.is_empty());
    words.map(|word| u64::from_str_radix(word.strip_prefix("0x").unwrap_or(word), 16)).collect()
}

fn show(number: usize, polygon: &Polygon) {
    let outer = polygon.exterior();
    let area = outer.area() * RADIUS * RADIUS;
    println!("polygon {number}: {} edges, {area:.3} km² inside", outer.rows().len());
    for hole in polygon.interiors() {
        println!("  with a hole of {} edges", hole.rows().len());
    }
}

fn run() -> Result<(), Box<dyn Error>> {
    let mut files = env::args().skip(1);
    let (Some(table_file), Some(list_file)) = (files.next(), files.next()) else {
        return Err("usage: outline TABLE CELLS".into());
    };
    let table = table(&fs::read(table_file)?).ok_or("the table has a cut row")?;
    let solvent = SolventBuilder::new().build(&table);
    match solvent.dissolve(cells(&fs::read_to_string(list_file)?)?)? {
        Dissolution::Nothing => println!("no cells"),
        Dissolution::Closed => println!("the cells cover the sphere"),
        Dissolution::Outlined(outline) => {
            outline.polygons().iter().enumerate().for_each(|(number, polygon)| show(number + 1, polygon));
        }
    }
    Ok(())
}

fn main() -> ExitCode {
    match run() {
        Ok(()) => ExitCode::SUCCESS,
        Err(message) => {
            eprintln!("{message}");
            ExitCode::FAILURE
        }
    }
}
