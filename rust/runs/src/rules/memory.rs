//! The lent memory of a standing state, and its bytes: head, then the slices one after the other, each whole, little-endian.

#[derive(Clone, Debug, PartialEq)]
pub struct Memory {
    /// Mode and number of held cells.
    pub head: [u32; 2],
    // One for each place.
    pub cells: Vec<u64>,
    pub parent: Vec<u32>,
    pub rank: Vec<u32>,
    pub cell_mark: Vec<u32>,
    // One for each slot.
    pub slot_row: Vec<u32>,
    pub slot_cell: Vec<u32>,
    pub prev: Vec<u32>,
    pub next: Vec<u32>,
    // One for each row.
    pub row_slot: Vec<u32>,
    pub row_mark: Vec<u32>,
}

impl Memory {
    pub fn opened(mode: u32, rows: usize, slots: usize, places: usize) -> Self {
        Self {
            head: [mode, 0],
            cells: vec![0; places],
            parent: vec![0; places],
            rank: vec![0; places],
            cell_mark: vec![0; places],
            slot_row: vec![0; slots],
            slot_cell: vec![0; slots],
            prev: vec![0; slots],
            next: vec![0; slots],
            row_slot: vec![0; rows],
            row_mark: vec![0; rows],
        }
    }

    /// Newly opened, whatever it held.
    pub fn open(&mut self, mode: u32) {
        *self = Self::opened(mode, self.rows(), self.slots(), self.places());
    }

    pub fn places(&self) -> usize {
        self.cells.len()
    }

    pub fn slots(&self) -> usize {
        self.slot_row.len()
    }

    pub fn rows(&self) -> usize {
        self.row_slot.len()
    }

    pub fn held(&self) -> usize {
        self.head[1] as usize
    }

    pub fn held_cells(&self) -> &[u64] {
        &self.cells[..self.held()]
    }

    /// The row that a slot holds; none in a free slot.
    pub fn row_in(&self, slot: usize) -> Option<usize> {
        (self.slot_row[slot] as usize).checked_sub(1)
    }

    /// The slot that holds a row.
    pub fn slot_of(&self, row: usize) -> Option<usize> {
        (self.row_slot[row] as usize).checked_sub(1)
    }

    pub fn free_slots(&self) -> impl Iterator<Item = usize> {
        (0..self.slots()).filter(|slot| self.slot_row[*slot] == 0)
    }

    /// The top of a place's group, following parents.
    pub fn root(&self, place: usize) -> usize {
        let mut at = place;
        while self.parent[at] as usize != at {
            at = self.parent[at] as usize;
        }
        at
    }

    pub const fn bytes(rows: usize, slots: usize, places: usize) -> usize {
        8 + 20 * places + 16 * slots + 8 * rows
    }

    /// None where the bytes are not as many as the capacities ask.
    pub fn decode(bytes: &[u8], rows: usize, slots: usize, places: usize) -> Option<Self> {
        if bytes.len() != Self::bytes(rows, slots, places) {
            return None;
        }
        let mut at = 0;
        let mut take = |size: usize| {
            at += size;
            &bytes[at - size..at]
        };
        let mut words = |count: usize| take(4 * count).chunks_exact(4).map(word).collect::<Vec<_>>();
        let head = words(2);
        let wide = words(2 * places);
        let cells = wide.chunks_exact(2).map(|pair| u64::from(pair[0]) | u64::from(pair[1]) << 32).collect();
        Some(Self {
            head: [head[0], head[1]],
            cells,
            parent: words(places),
            rank: words(places),
            cell_mark: words(places),
            slot_row: words(slots),
            slot_cell: words(slots),
            prev: words(slots),
            next: words(slots),
            row_slot: words(rows),
            row_mark: words(rows),
        })
    }

    pub fn encode(&self) -> Vec<u8> {
        let mut bytes = Vec::with_capacity(Self::bytes(self.rows(), self.slots(), self.places()));
        let mut put = |words: &[u32]| words.iter().for_each(|w| bytes.extend(w.to_le_bytes()));
        put(&self.head);
        self.cells.iter().for_each(|cell| put(&[*cell as u32, (*cell >> 32) as u32]));
        for words in [&self.parent, &self.rank, &self.cell_mark] {
            put(words);
        }
        for words in [&self.slot_row, &self.slot_cell, &self.prev, &self.next] {
            put(words);
        }
        put(&self.row_slot);
        put(&self.row_mark);
        bytes
    }
}

fn word(bytes: &[u8]) -> u32 {
    u32::from_le_bytes(bytes.try_into().expect("four bytes"))
}
