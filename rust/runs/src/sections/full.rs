//! The calls at full size, on larger tables than the byte entry points take: every number of state and outputs against the rules, the
//! answers against the definitions and the Rust. Lengths that disagree can be given here alone.
use super::{Context, Report, fault, good_list};
use crate::{
    oracle_answer::{self, Compared, Lent},
    problem::AGAINST_THE_RUST,
    random::Random,
    rules::{
        afresh,
        full::{self as rules, Outputs},
        lists::Kept,
        memory::Memory,
    },
    subject::exports,
    tables::{
        Given,
        regions::{disk, scattered, under, with_more_pairs},
        torus::ancestor,
    },
};

pub fn run(context: &mut Context, report: &mut Report) -> Result<(), String> {
    for name in ["disk_r9_k10", "world_r1"] {
        let given = Given::new(name, context.folder.read(name)?);
        let lent = oracle_answer::lent(&given.table);
        for _ in 0..context.rounds(150) {
            let random = &mut context.random;
            Calls::new(&given, lent.as_ref(), random, report).list(random)?;
            Calls::new(&given, lent.as_ref(), random, report).offers(random)?;
            Calls::new(&given, lent.as_ref(), random, report).lengths(random)?;
        }
    }
    // The outline of a cell seven levels up: 13,122 edges.
    let deep = Given::new("gosper_d7_r9", context.folder.read("gosper_d7_r9")?);
    whole(&deep, &deep.coarser.clone(), 1, report)?;
    let big = Given::new("big_r9", context.folder.read("big_r9")?);
    long_lists(&big, report)?;
    rows_around_the_bound(&big, report)?;
    let around = disk(&big, 3000);
    whole(&big, &scattered(&big, &around), 1, report)?;
    whole(&big, &around, 0, report)
}

/// One list, with as much room as the table can need.
fn whole(given: &Given, list: &[u64], mode: u64, report: &mut Report) -> Result<(), String> {
    let lent = oracle_answer::lent(&given.table);
    let rows = given.table.rows();
    let memory = Memory::opened(7, rows, rows.min(65_536), list.len());
    let out = Outputs::new(rows, rows);
    Calls { given, lent: lent.as_ref(), memory, out, taken: None, report }.dissolve(list, mode)
}

/// Lists of more than 16,384 cells, which the library checks by parts of so many: too many cells, and faults in the last part.
fn long_lists(given: &Given, report: &mut Report) -> Result<(), String> {
    let good = under(ancestor(given.cells[0], 4), 9, 16_400);
    let with = |place: usize, cell: u64| [&good[..place], &[cell], &good[place + 1..]].concat();
    let invalid = with(16_399, 7);
    let equal = with(16_395, good[3]);
    let nested = with(16_390, ancestor(good[7], 8));
    let lent = oracle_answer::lent(&given.table);
    for (list, mode) in [(good.clone(), 0), (invalid, 0), (equal, 2), (nested, 1)] {
        let memory = Memory::opened(7, given.table.rows(), 64, 16_384);
        let out = Outputs::new(1, 1);
        Calls { given, lent: lent.as_ref(), memory, out, taken: None, report }.dissolve(&list, mode)?;
    }
    Ok(())
}

/// 65,536 rows, which are taken, and two more.
fn rows_around_the_bound(big: &Given, report: &mut Report) -> Result<(), String> {
    for more in [1, 2] {
        let table = with_more_pairs(&big.table, more);
        let name = format!("big_r9 with {more} more pairs");
        whole(&Given { name, table, cells: Vec::new(), coarser: Vec::new() }, &disk(big, 20), 0, report)?;
    }
    Ok(())
}

/// Mostly ample; else tight, the most, one more or none.
fn capacity(ample: usize, most: usize, tight: usize, random: &mut Random) -> usize {
    match random.below(16) {
        0 | 1 => 1 + random.below(tight),
        2 => most,
        3 => most + 1,
        4 => 0,
        _ => ample,
    }
}

/// Calls on one memory, each made twice: by the rules and by the library.
struct Calls<'a> {
    given: &'a Given,
    lent: Option<&'a Lent>,
    memory: Memory,
    out: Outputs,
    /// The mode and the accepted cells of a state that calls alone have made.
    taken: Option<(Kept, Vec<u64>)>,
    report: &'a mut Report,
}

impl<'a> Calls<'a> {
    /// Memory that was never opened, with capacities and outputs that are ample or tight.
    fn new(given: &'a Given, lent: Option<&'a Lent>, random: &mut Random, report: &'a mut Report) -> Self {
        let rows = given.table.rows();
        let slots = capacity(rows, 65_536, 600, random);
        let places = capacity(rows.min(16_384), 16_384, 200, random);
        let rings = capacity(rows, rows, 12, random);
        let edges = capacity(rows, rows, 900, random);
        let mut memory = Memory::opened(7, rows, slots, places);
        memory.row_mark.fill(3);
        Self { given, lent, memory, out: Outputs::new(rings, edges), taken: None, report }
    }

    fn list(mut self, random: &mut Random) -> Result<(), String> {
        let mode = if random.one_in(12) { random.of(&[3, u64::MAX]) } else { random.of(&[0, 1, 1, 2]) };
        let mut list = good_list(self.given, mode == 1, 256, random);
        for _ in 0..random.of(&[0, 0, 0, 1, 2]) {
            let cell = fault(self.given, &list, random);
            list.insert(random.below(list.len() + 1), cell);
        }
        self.dissolve(&list, mode)?;
        // The memory is that of a standing state now, or as it was.
        self.offer(random.of(&self.given.cells))?;
        self.read_out()
    }

    fn offers(mut self, random: &mut Random) -> Result<(), String> {
        let mode = random.of(&[0, 1, 2]);
        self.open(mode)?;
        let list = good_list(self.given, mode == 1, 12, random);
        for (i, cell) in list.iter().enumerate() {
            self.offer(*cell)?;
            if random.one_in(4) {
                self.offer(fault(self.given, &list[..i], random))?;
            }
        }
        self.read_out()
    }

    /// One slice is an element shorter than the others.
    fn lengths(mut self, random: &mut Random) -> Result<(), String> {
        let m = &mut self.memory;
        let words = [
            &mut m.parent,
            &mut m.rank,
            &mut m.cell_mark,
            &mut m.slot_row,
            &mut m.slot_cell,
            &mut m.prev,
            &mut m.next,
            &mut m.row_slot,
            &mut m.row_mark,
            &mut self.out.start,
            &mut self.out.size,
            &mut self.out.group,
        ];
        let count = words.len();
        match random.below(count + 3) {
            slice if slice < count => drop(words.into_iter().nth(slice).map(Vec::pop)),
            slice if slice == count => drop(m.cells.pop()),
            slice if slice == count + 1 => drop(self.out.area.pop()),
            _ => drop(self.out.summary.pop()),
        }
        self.open(1)?;
        self.offer(random.of(&self.given.cells))?;
        self.read_out()?;
        self.dissolve(&[random.of(&self.given.cells)], 1)
    }

    fn open(&mut self, mode: u64) -> Result<(), String> {
        let (table, before) = (&self.given.table, self.clone_memory());
        let answer = rules::open(table, &mut self.memory, mode);
        self.taken = if answer == 0 { Kept::of(mode).map(|kept| (kept, Vec::new())) } else { None };
        self.same("open", answer, before, |memory, _| exports::open(table, memory, mode))
    }

    fn offer(&mut self, cell: u64) -> Result<(), String> {
        let (table, before) = (&self.given.table, self.clone_memory());
        let answer = rules::offer(table, &mut self.memory, cell);
        if let (0, Some((_, cells))) = (answer, &mut self.taken) {
            cells.push(cell);
        }
        self.same("offer", answer, before, |memory, _| exports::offer(table, memory, cell))
    }

    fn read_out(&mut self) -> Result<(), String> {
        let (table, before) = (&self.given.table, self.clone_memory());
        let answer = rules::read_out(table, &self.memory, &mut self.out);
        self.same("read out", answer, before, |memory, out| exports::read_out(table, memory, out))?;
        match self.taken.clone() {
            Some((kept, cells)) if answer == 0 => self.defined(answer, kept, &cells),
            _ => Ok(()),
        }
    }

    fn dissolve(&mut self, list: &[u64], mode: u64) -> Result<(), String> {
        let (table, before) = (&self.given.table, self.clone_memory());
        let answer = rules::dissolve(table, &mut self.memory, list, &mut self.out, mode);
        self.same("dissolve", answer, before, |memory, out| exports::dissolve(table, memory, list, out, mode))?;
        let Some(kept) = Kept::of(mode) else {
            return Ok(());
        };
        self.taken = if answer == 0 { Some((kept, list.to_vec())) } else { None };
        self.defined(answer, kept, list)
    }

    fn clone_memory(&self) -> (Memory, Outputs) {
        (self.memory.clone(), self.out.clone())
    }

    /// The library's call on what was there before leaves the same, and answers the same.
    fn same(
        &mut self,
        call: &str,
        answer: u64,
        (mut memory, mut out): (Memory, Outputs),
        library: impl FnOnce(&mut Memory, &mut Outputs) -> u64,
    ) -> Result<(), String> {
        self.report.problem();
        let outcome = if answer == 0 { "done".into() } else { format!("refused {}", answer >> 32) };
        self.report.counts.add(format!("{call} {outcome}"));
        let result = library(&mut memory, &mut out);
        let what = match () {
            () if result != answer => format!("the rules answer {answer:x}, the library {result:x}"),
            () if memory != self.memory => "the state differs".into(),
            () if out.numbers() != self.out.numbers() => "the outputs differ".into(),
            () => return Ok(()),
        };
        let (slots, places) = (memory.slots(), memory.places());
        Err(format!("full: {call} on {}, {slots} slots, {places} places: {what}", self.given.name))
    }

    /// What was shown, against the definitions and the Rust; a list that was refused with 3 or 4, against the Rust.
    fn defined(&mut self, answer: u64, kept: Kept, list: &[u64]) -> Result<(), String> {
        let table = &self.given.table;
        let defined = match answer >> 32 {
            0 => {
                let read = afresh::dissolve(table, list).ok_or("an outline of an accepted cell is not there")?;
                let mut out = self.out.clone();
                if out.show(&read).is_err() || out.numbers() != self.out.numbers() {
                    return Err(format!("full: not what is defined: {}, {list:016x?}", self.given.name));
                }
                Ok(read)
            }
            number @ 3..=4 => Err(number as u32),
            _ => return Ok(()),
        };
        if let Some(lent) = self.lent {
            match lent.compare(kept, table.target(), list, &defined)? {
                Compared::Same => self.report.counts.add(AGAINST_THE_RUST),
                Compared::LeftOut(why) => self.report.counts.add(format!("left out ({why})")),
            }
        }
        Ok(())
    }
}
