//! A problem: a table, a state's bytes and calls on them. Each call is put to the rules and to the library under test, and every byte
//! afterwards is compared; where a state or list came about by calls alone, the outcome is compared with the definitions too, and on the
//! domain of the runs with the oracle.
use crate::{
    oracle_answer::{self, Compared},
    rules::{
        afresh,
        bytes::{self, HEAD, cells_of, table_of},
        cells::is_cell,
        lists::Kept,
        memory::Memory,
        table::Table,
    },
    subject,
};
use std::{collections::BTreeMap, fmt};

/// What fills an output before a call, so that a byte written by mistake shows.
pub const FILL: u8 = 0xA5;

#[derive(Clone)]
pub struct Problem {
    pub table: Vec<u8>,
    pub state: Vec<u8>,
    pub slots: u32,
    pub places: u32,
    pub calls: Vec<Call>,
    /// Whether the table is one that the Rust can be asked about.
    pub regular: bool,
}

#[derive(Clone)]
pub enum Call {
    Dissolve {
        cells: Vec<u8>,
        mode: u32,
        slots: u32,
        places: u32,
        room: usize,
    },
    /// A call on the standing state, with its number and value.
    Standing {
        call: u32,
        value: u64,
        room: usize,
    },
}

impl Call {
    pub fn open(mode: u64) -> Self {
        Self::Standing { call: 0, value: mode, room: 0 }
    }
    pub fn offer(cell: u64) -> Self {
        Self::Standing { call: 1, value: cell, room: 0 }
    }
    pub fn read_out(room: usize) -> Self {
        Self::Standing { call: 2, value: 0, room }
    }
}

impl Problem {
    /// With memory that was never opened.
    pub fn new(table: &Table, slots: u32, places: u32, regular: bool) -> Self {
        let state = vec![FILL; Memory::bytes(table.rows(), slots as usize, places as usize)];
        Self { table: bytes::table_bytes(table), state, slots, places, calls: Vec::new(), regular }
    }

    /// Room for any answer: a ring and a row number for each row, which is more than can be written.
    pub fn room(&self) -> usize {
        HEAD + 24 * self.rows()
    }

    pub fn rows(&self) -> usize {
        self.table.len() / bytes::ROW
    }
}

/// How an answer is counted that the Rust gives too.
pub const AGAINST_THE_RUST: &str = "against the Rust";

/// How often each outcome was met.
#[derive(Default)]
pub struct Counts(pub BTreeMap<String, usize>);

impl Counts {
    pub fn add(&mut self, what: impl Into<String>) {
        *self.0.entry(what.into()).or_default() += 1;
    }
}

impl fmt::Display for Counts {
    fn fmt(&self, f: &mut fmt::Formatter) -> fmt::Result {
        let words = self.0.iter().map(|(what, count)| format!("{what} {count}")).collect::<Vec<_>>();
        f.write_str(&words.join(", "))
    }
}

/// What differs, in a sentence.
pub type Difference = String;

/// Runs the problem's calls; the first difference ends it.
pub fn run(problem: &Problem, counts: &mut Counts) -> Result<(), Difference> {
    let table = table_of(&problem.table);
    let oracle = if problem.regular { oracle_answer::lent(&table) } else { None };
    let mut runner = Runner { problem, table, oracle, state: problem.state.clone(), taken: None, counts };
    for (number, call) in problem.calls.iter().enumerate() {
        runner.call(call).map_err(|difference| format!("call {}: {difference}", number + 1))?;
    }
    Ok(())
}

struct Runner<'a> {
    problem: &'a Problem,
    table: Table,
    oracle: Option<oracle_answer::Lent>,
    state: Vec<u8>,
    /// Mode and accepted cells, as long as calls alone have touched the state since it was opened.
    taken: Option<(Kept, Vec<u64>)>,
    counts: &'a mut Counts,
}

impl Runner<'_> {
    fn call(&mut self, call: &Call) -> Result<(), Difference> {
        match call {
            Call::Dissolve { cells, mode, slots, places, room } => self.dissolve(cells, *mode, *slots, *places, *room),
            Call::Standing { call, value, room } => self.standing(*call, *value, *room),
        }
    }

    fn dissolve(&mut self, cells: &[u8], mode: u32, slots: u32, places: u32, room: usize) -> Result<(), Difference> {
        let table = &self.problem.table;
        let mut out = vec![FILL; room];
        let answer = bytes::dissolve(table, cells, &mut out, mode, slots, places);
        self.count("dissolve", answer);
        if subject::AVAILABLE {
            let mut theirs = vec![FILL; room];
            let result = subject::dissolve(table, cells, &mut theirs, mode, slots, places);
            same_result(answer, result)?;
            same_bytes("output", ("the rules", &out), ("the library", &theirs))?;
        }
        let Some(kept) = Kept::of(mode.into()) else {
            return Ok(());
        };
        self.compare_with_definitions(answer, kept, &cells_of(cells), &out)
    }

    fn standing(&mut self, call: u32, value: u64, room: usize) -> Result<(), Difference> {
        let (table, slots, places) = (&self.problem.table, self.problem.slots, self.problem.places);
        let before = self.state.clone();
        let mut out = vec![FILL; room];
        let answer = bytes::standing(table, &mut self.state, &mut out, slots, places, call, value);
        self.count(["open", "offer", "read out"].get(call as usize).unwrap_or(&"other call"), answer);
        if subject::AVAILABLE {
            let (mut state, mut theirs) = (before, vec![FILL; room]);
            let result = subject::standing(table, &mut state, &mut theirs, slots, places, call, value);
            same_result(answer, result)?;
            same_bytes("state", ("the rules", &self.state), ("the library", &state))?;
            same_bytes("output", ("the rules", &out), ("the library", &theirs))?;
        }
        match (call, answer) {
            (0, 0) => self.taken = Kept::of(value).map(|kept| (kept, Vec::new())),
            (1, 0) => {
                if let Some((_, cells)) = &mut self.taken {
                    cells.push(value);
                }
                return self.slots_add_up();
            }
            (2, 0) => {
                if let Some((kept, cells)) = self.taken.clone() {
                    return self.compare_with_definitions(0, kept, &cells, &out);
                }
            }
            _ => {}
        }
        Ok(())
    }

    fn count(&mut self, call: &str, answer: u64) {
        let outcome = if answer == 0 { "done".into() } else { format!("refused {}", answer >> 32) };
        self.counts.add(format!("{call} {outcome}"));
    }

    /// Free slots plus standing edges equal the pool's size.
    fn slots_add_up(&self) -> Result<(), Difference> {
        let Some((_, cells)) = &self.taken else {
            return Ok(());
        };
        let (slots, places) = (self.problem.slots as usize, self.problem.places as usize);
        let memory = Memory::decode(&self.state, self.table.rows(), slots, places);
        let free = memory.map_or(0, |memory| memory.free_slots().count());
        let standing = afresh::standing(&self.table, cells).map_or(0, |rows| rows.len());
        if free + standing == slots {
            return Ok(());
        }
        Err(format!("{free} free slots and {standing} standing edges in a pool of {slots}"))
    }

    /// An accepted list, against the definitions and the oracle; a list refused with 3 or 4, against the oracle.
    fn compare_with_definitions(
        &mut self,
        answer: u64,
        kept: Kept,
        cells: &[u64],
        out: &[u8],
    ) -> Result<(), Difference> {
        let defined = match answer {
            0 => {
                let read = afresh::dissolve(&self.table, cells).ok_or("an outline of an accepted cell is not there")?;
                let bytes = bytes::encode(&read);
                let written = out.get(..bytes.len()).unwrap_or(out);
                same_bytes("output", ("the definitions", &bytes), ("the rules", written))?;
                Ok(read)
            }
            _ => Err((answer >> 32) as u32),
        };
        if matches!(defined, Err(number) if number != 3 && number != 4) || !cells.iter().all(|cell| is_cell(*cell)) {
            return Ok(());
        }
        if let Some(lent) = &self.oracle {
            match lent.compare(kept, self.table.target(), cells, &defined)? {
                Compared::Same => self.counts.add(AGAINST_THE_RUST),
                Compared::LeftOut(why) => self.counts.add(format!("left out ({why})")),
            }
        }
        Ok(())
    }
}

fn same_result(rules: u64, subject: u64) -> Result<(), Difference> {
    if rules == subject {
        return Ok(());
    }
    let words = |answer: u64| match answer {
        0 => "accepted".into(),
        _ => format!("refused with {} and {}", answer >> 32, answer as u32),
    };
    Err(format!("the rules say {}, the library says {}", words(rules), words(subject)))
}

/// The bytes of two, each with its name.
fn same_bytes(what: &str, one: (&str, &[u8]), other: (&str, &[u8])) -> Result<(), Difference> {
    let at = one.1.iter().zip(other.1).position(|(a, b)| a != b);
    if at.is_none() && one.1.len() == other.1.len() {
        return Ok(());
    }
    let at = at.unwrap_or(one.1.len().min(other.1.len()));
    let near = |(name, bytes): (&str, &[u8])| {
        let word = at / 4 * 4;
        format!("{:02x?} by {name}", &bytes[word..bytes.len().min(word + 8)])
    };
    Err(format!("{what}, byte {at}: {}, {}", near(one), near(other)))
}
