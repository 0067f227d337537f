//! The library's calls at full size, over the memory that is lent to them. All that is unsafe in this crate is in this module.
mod exports;

use crate::{EdgeTable, Refusal};
use exports::{call, zo_dissolve, zo_offer, zo_open, zo_read_out};

/// The memory of a standing state. Cleared, with mode 0, it is newly opened.
#[derive(Debug, Clone)]
pub struct Memory {
    pub head: Vec<u32>,
    pub cells: Vec<u64>,
    parent: Vec<u32>,
    rank: Vec<u32>,
    cell_mark: Vec<u32>,
    slot_row: Vec<u32>,
    slot_cell: Vec<u32>,
    prev: Vec<u32>,
    next: Vec<u32>,
    row_slot: Vec<u32>,
    row_mark: Vec<u32>,
}

impl Memory {
    pub fn new(rows: usize, slots: usize, places: usize) -> Self {
        Self {
            head: vec![0; 2],
            cells: vec![0; places],
            parent: vec![0; places],
            rank: vec![0; places],
            cell_mark: vec![0; places],
            slot_row: vec![0; slots],
            slot_cell: vec![0; slots],
            prev: vec![0; slots],
            next: vec![0; slots],
            row_slot: vec![0; rows],
            row_mark: vec![0; rows],
        }
    }

    /// The bytes of its columns, one after the other, least byte first, as include/zone_outliner.h has them.
    pub fn to_bytes(&self) -> Vec<u8> {
        let words = |column: &[u32]| column.iter().flat_map(|word| word.to_le_bytes()).collect::<Vec<_>>();
        let places = [&self.parent, &self.rank, &self.cell_mark];
        let slots = [&self.slot_row, &self.slot_cell, &self.prev, &self.next];
        let rows = [&self.row_slot, &self.row_mark];
        let mut bytes = words(&self.head);
        bytes.extend(self.cells.iter().flat_map(|cell| cell.to_le_bytes()));
        places.into_iter().chain(slots).chain(rows).for_each(|column| bytes.extend(words(column)));
        bytes
    }

    /// Takes its columns from such bytes; none where they are more or fewer.
    pub fn fill(&mut self, mut bytes: &[u8]) -> Option<()> {
        let Self { head, cells, parent, rank, cell_mark, slot_row, slot_cell, prev, next, row_slot, row_mark } = self;
        take_words(head, &mut bytes)?;
        for cell in cells {
            *cell = u64::from_le_bytes(*take(&mut bytes)?);
        }
        for column in [parent, rank, cell_mark, slot_row, slot_cell, prev, next, row_slot, row_mark] {
            take_words(column, &mut bytes)?;
        }
        bytes.is_empty().then_some(())
    }
}

fn take_words(column: &mut [u32], bytes: &mut &[u8]) -> Option<()> {
    for word in column {
        *word = u32::from_le_bytes(*take(bytes)?);
    }
    Some(())
}

/// The first bytes, which are then behind.
fn take<'b, const N: usize>(bytes: &mut &'b [u8]) -> Option<&'b [u8; N]> {
    let (first, rest) = bytes.split_first_chunk()?;
    *bytes = rest;
    Some(first)
}

/// The outputs of read out and dissolve: a record for each ring, the rows of all rings, and kind, polygons, rings and area bits.
#[derive(Debug)]
pub struct Outputs {
    pub start: Vec<u32>,
    pub size: Vec<u32>,
    pub group: Vec<u32>,
    pub area: Vec<f64>,
    pub edges: Vec<u32>,
    pub summary: [u64; 4],
}

impl Outputs {
    /// As many records and rows as the table has rows: no more rings or edges can stand.
    pub fn new(rows: usize) -> Self {
        let words = || vec![0; rows];
        Self { start: words(), size: words(), group: words(), area: vec![0.0; rows], edges: words(), summary: [0; 4] }
    }
}

pub fn open(table: &EdgeTable, memory: &mut Memory, mode: usize) -> Result<(), Refusal> {
    Refusal::check(call!(zo_open, table, memory, mode))
}

pub fn offer(table: &EdgeTable, memory: &mut Memory, cell: u64) -> Result<(), Refusal> {
    Refusal::check(call!(zo_offer, table, memory, cell))
}

pub fn read_out(table: &EdgeTable, memory: &mut Memory, out: &mut Outputs) -> Result<(), Refusal> {
    Refusal::check(call!(zo_read_out, table, memory => out))
}

pub fn dissolve(
    table: &EdgeTable,
    memory: &mut Memory,
    list: &[u64],
    out: &mut Outputs,
    mode: usize,
) -> Result<(), Refusal> {
    Refusal::check(call!(zo_dissolve, table, memory, list.into() => out, mode))
}
