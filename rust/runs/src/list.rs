//! The fixed list of the oracle's answers, for a program that replays it with no Rust at hand.
//!
//! Little-endian records, one after the other, each a head of 32 bytes, then its input, then its output:
//!
//! | bytes | |
//! |---|---|
//! | 0 to 3 | kind: 1 a table, 2 a dissolve on the last table, 0 the end |
//! | 4 to 7 | mode of a dissolve; in the end record, the number of dissolves |
//! | 8 to 11, 12 to 15 | slots and places |
//! | 16 to 23 | the result: 0, or number · 2^32 + index |
//! | 24 to 27, 28 to 31 | bytes of input (a table's rows, or a list's cells) and of output (none for a table or a refusal) |
//!
//! Rows, cells, results and outputs are those of the byte entry points. Every list lies in the domain of the runs, and its answer is the
//! oracle's: the refusal's kind, or polygons, rings, areas and order. What the Rust doesn't answer comes from document 01's rules: a
//! refusal's index, and the number that a group is written as. `runs list > crates/replay/data/answers.list` has made the file, and makes the
//! same one again. The program `replay` puts it to the proved code with no Rust at hand, and the runs replay it first of all.
use crate::{
    problem::{AGAINST_THE_RUST, Counts, FILL, Problem, run},
    random::Random,
    rules::bytes::{self, HEAD, MOST_PLACES as PLACES, MOST_SLOTS as SLOTS, cell_bytes, table_bytes},
    sections::{dissolve_call, fault, good_list},
    subject,
    tables::{
        Given,
        real::Folder,
        torus::{ancestor, torus},
    },
};
use std::{fs, io::Write as _};

const SEED: u64 = 11;
const RECORD: usize = 32;

pub fn write(folder: &Folder) -> Result<(), String> {
    if !oracle::AVAILABLE {
        return Err("the Rust's texts were not there when this was built".into());
    }
    let random = &mut Random::new(SEED);
    let mut list = List { bytes: Vec::new(), dissolves: 0 };
    let seven = Given::new("seven_r9", folder.read("seven_r9")?);
    list.table(&seven);
    for cells in every_pair(&seven) {
        list.dissolve(&seven, 0, &cells)?;
        list.dissolve(&seven, 1, &cells)?;
    }
    list.random(&seven, 40, random)?;
    for (given, lists) in [(torus(3, 3, 1, random), 60), (torus(5, 4, 0, random).with_other_terms(random), 40)] {
        list.table(&given);
        list.random(&given, lists, random)?;
    }
    for name in ["world_r0", "pent_r2", "pent_r3_face"] {
        let given = Given::new(name, folder.read(name)?);
        list.table(&given);
        list.dissolve(&given, 0, &given.cells)?;
        list.dissolve(&given, 1, &given.coarser)?;
        list.random(&given, 30, random)?;
    }
    let dissolves = list.dissolves;
    list.record(0, dissolves, 0, &[], &[]);
    std::io::stdout().write_all(&list.bytes).map_err(|error| error.to_string())
}

/// Puts the list of the repository to the library; how many answers it has.
pub fn replay() -> Result<u32, String> {
    let path = concat!(env!("CARGO_MANIFEST_DIR"), "/../../crates/replay/data/answers.list");
    let bytes = fs::read(path).map_err(|error| format!("{path}: {error}"))?;
    let (mut rest, mut table, mut dissolves) = (bytes.as_slice(), [].as_slice(), 0);
    while rest.len() >= RECORD {
        let (head, after) = rest.split_at(RECORD);
        let number = |at: usize| u32::from_le_bytes(head[at..at + 4].try_into().expect("four bytes"));
        let result = u64::from(number(20)) << 32 | u64::from(number(16));
        let (input, after) = after.split_at_checked(number(24) as usize).ok_or("the list ends in a record")?;
        let (output, after) = after.split_at_checked(number(28) as usize).ok_or("the list ends in a record")?;
        match number(0) {
            1 => table = input,
            2 => {
                dissolves += 1;
                let mut out = vec![FILL; output.len() + 4];
                let answer = subject::dissolve(table, input, &mut out, number(4), number(8), number(12));
                let (written, past) = out.split_at(if answer == 0 { output.len() } else { 0 });
                if answer != result || written != output || past.iter().any(|byte| *byte != FILL) {
                    return Err(format!("list: dissolve {dissolves} of {path} is answered otherwise"));
                }
            }
            _ if number(4) == dissolves => return Ok(dissolves),
            _ => break,
        }
        rest = after;
    }
    Err(format!("{path} has no end record, or lacks dissolves"))
}

/// The empty list, each cell, and every two of them, an equal pair and a coarser cell included.
fn every_pair(given: &Given) -> Vec<Vec<u64>> {
    let mut choices = given.cells.clone();
    choices.push(ancestor(choices[0], 8));
    let mut lists = vec![Vec::new()];
    lists.extend(given.cells.iter().map(|cell| vec![*cell]));
    lists.extend(given.cells.iter().flat_map(|a| choices.iter().map(move |b| vec![*a, *b])));
    lists
}

struct List {
    bytes: Vec<u8>,
    dissolves: u32,
}

impl List {
    fn record(&mut self, kind: u32, mode: u32, result: u64, input: &[u8], output: &[u8]) {
        let capacity = if kind == 2 { [SLOTS, PLACES] } else { [0, 0] };
        for number in [kind, mode, capacity[0], capacity[1]] {
            self.bytes.extend(number.to_le_bytes());
        }
        self.bytes.extend(result.to_le_bytes());
        for bytes in [input, output] {
            self.bytes.extend((bytes.len() as u32).to_le_bytes());
        }
        self.bytes.extend([input, output].concat());
    }

    fn table(&mut self, given: &Given) {
        self.record(1, 0, 0, &table_bytes(&given.table), &[]);
    }

    /// One list, if the oracle has an answer to compare with.
    fn dissolve(&mut self, given: &Given, mode: u32, cells: &[u64]) -> Result<(), String> {
        let mut problem = Problem::new(&given.table, 1, 1, true);
        problem.calls.push(dissolve_call(&problem, mode, cells));
        let mut counts = Counts::default();
        run(&problem, &mut counts)?;
        if !counts.0.contains_key(AGAINST_THE_RUST) {
            return Ok(());
        }
        let input = cell_bytes(cells);
        let mut out = vec![0; problem.room()];
        let result = bytes::dissolve(&problem.table, &input, &mut out, mode, SLOTS, PLACES);
        let written = if result == 0 { written(&out) } else { 0 };
        self.dissolves += 1;
        self.record(2, mode, result, &input, &out[..written]);
        Ok(())
    }

    fn random(&mut self, given: &Given, lists: usize, random: &mut Random) -> Result<(), String> {
        for _ in 0..lists {
            let mode = random.of(&[0, 1, 1, 2]);
            let mut list = good_list(given, mode == 1, 40, random);
            if random.one_in(5) {
                list.push(fault(given, &list, random));
            }
            self.dissolve(given, mode, &list)?;
        }
        Ok(())
    }
}

/// How many bytes an answer takes.
fn written(out: &[u8]) -> usize {
    let number = |at: usize| u32::from_le_bytes(out[at..at + 4].try_into().expect("four bytes")) as usize;
    HEAD + 20 * number(8) + 4 * number(12)
}
