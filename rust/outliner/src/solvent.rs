//! The solvent and its builder, named as in h3o.
use crate::{
    Dissolution, EdgeTable, Refusal, Zone,
    calls::{self, Memory, Outputs},
};

const MOST_SLOTS: usize = 65_536;
const MOST_CELLS: usize = 16_384;

/// Configures a solvent.
#[derive(Debug, Clone, Copy, Default)]
pub struct SolventBuilder {
    heterogeneous: bool,
    slots: Option<usize>,
    capacity: Option<usize>,
}

impl SolventBuilder {
    /// Even mode: every cell has the table's resolution.
    #[must_use]
    pub const fn new() -> Self {
        Self { heterogeneous: false, slots: None, capacity: None }
    }

    /// Mixed mode: coarser cells are taken too, and none may lie under another. Outlines are drawn at the table's resolution, which h3o has
    /// to be told here.
    ///
    /// ```
    /// use outliner::{EdgeTable, Refusal, SolventBuilder};
    /// # let hexagons = [0x8001fffffffffff, 0x8003fffffffffff];
    /// # let edges = (1..=6).flat_map(|side| hexagons.map(|cell| cell + (1 << 59) + (side << 56))).collect();
    /// # let table = EdgeTable::new(edges, (0..12).map(|row| row ^ 1).collect(), vec![1.0; 12]);
    /// let solvent = SolventBuilder::new().enable_heterogeneous_support().build(&table);
    /// // A cell of resolution 1 is finer than this table.
    /// assert_eq!(solvent.dissolve([0x81003ffffffffff]), Err(Refusal::UnsupportedResolution { index: 0 }));
    /// ```
    #[must_use]
    pub const fn enable_heterogeneous_support(mut self) -> Self {
        self.heterogeneous = true;
        self
    }

    /// So many slots for edges, 1 to 65,536. By default as many as the table has rows, which is always enough.
    #[must_use]
    pub const fn slots(mut self, slots: usize) -> Self {
        self.slots = Some(slots);
        self
    }

    /// Room for so many cells, 1 to 16,384. By default as many as the table has rows, which is always enough, but no more than 16,384.
    #[must_use]
    pub const fn capacity(mut self, cells: usize) -> Self {
        self.capacity = Some(cells);
        self
    }

    /// A solvent over this table.
    #[must_use]
    pub fn build(self, table: &EdgeTable) -> Solvent<'_> {
        Solvent {
            table,
            // As in h3o, a builder that names no mode means the even one.
            mode: if self.heterogeneous { 1 } else { 2 },
            // Of a table with too few rows or too many the default is in range, so that it is refused for its rows.
            slots: self.slots.unwrap_or(table.rows().clamp(1, MOST_SLOTS)),
            places: self.capacity.unwrap_or(table.rows().clamp(1, MOST_CELLS)),
        }
    }
}

/// Dissolves sets of cells.
#[derive(Debug, Clone, Copy)]
pub struct Solvent<'t> {
    table: &'t EdgeTable,
    mode: usize,
    slots: usize,
    places: usize,
}

impl<'t> Solvent<'t> {
    /// The outline of a set of cells.
    ///
    /// # Errors
    ///
    /// The first [`Refusal`] in the order of the rules: bad lengths or table, then each rule over the whole list, then each cell in turn.
    pub fn dissolve(&self, cells: impl IntoIterator<Item = u64>) -> Result<Dissolution, Refusal> {
        let list: Vec<u64> = cells.into_iter().collect();
        let mut memory = self.memory()?;
        let mut out = Outputs::new(self.table.rows());
        calls::dissolve(self.table, &mut memory, &list, &mut out, self.mode)?;
        Ok(Dissolution::from_outputs(&out))
    }

    /// A zone that stands, with no cell yet.
    ///
    /// # Errors
    ///
    /// [`Refusal::BadLengths`] for lengths or capacities out of range, [`Refusal::BadTable`] for a bad table.
    pub fn open(&self) -> Result<Zone<'t>, Refusal> {
        let mut memory = self.memory()?;
        calls::open(self.table, &mut memory, self.mode)?;
        Ok(Zone::new(self.table, memory))
    }

    /// The zone that was kept as [`Zone::to_bytes`], over the same table and with the same slots and capacity. It keeps the mode in which it
    /// was opened.
    ///
    /// # Errors
    ///
    /// [`Refusal::BadLengths`] and [`Refusal::BadTable`] as in [`open`](Self::open), the first also for bytes of another length, and
    /// [`Refusal::BrokenState`] for bytes that break a rule of a state. Rules can't find every changed byte: keep a checksum beside them.
    pub fn reopen(&self, bytes: &[u8]) -> Result<Zone<'t>, Refusal> {
        let mut memory = self.memory()?;
        memory.fill(bytes).ok_or(Refusal::BadLengths)?;
        let mut zone = Zone::new(self.table, memory);
        // Reading it out checks table and state.
        zone.read_out()?;
        Ok(zone)
    }

    /// The lent memory. A capacity out of its range, which the library refuses before all else, is refused before memory is taken for it.
    fn memory(&self) -> Result<Memory, Refusal> {
        if (1..=MOST_SLOTS).contains(&self.slots) && (1..=MOST_CELLS).contains(&self.places) {
            Ok(Memory::new(self.table.rows(), self.slots, self.places))
        } else {
            Err(Refusal::BadLengths)
        }
    }
}
