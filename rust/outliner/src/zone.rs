//! A standing zone.
use crate::{
    Dissolution, EdgeTable, Refusal,
    calls::{self, Memory, Outputs},
};

/// A zone that takes cells one by one and can be read out at any time.
///
/// ```
/// use outliner::{Dissolution, EdgeTable, Refusal, SolventBuilder};
/// # let hexagons = [0x8001fffffffffff, 0x8003fffffffffff];
/// # let edges = (1..=6).flat_map(|side| hexagons.map(|cell| cell + (1 << 59) + (side << 56))).collect();
/// # let table = EdgeTable::new(edges, (0..12).map(|row| row ^ 1).collect(), vec![1.0; 12]);
/// let mut zone = SolventBuilder::new().build(&table).open()?;
/// assert_eq!(zone.read_out()?, Dissolution::Nothing);
///
/// zone.offer(hexagons[0])?;
/// // A broker sends the cell again: it is refused, and nothing changes.
/// assert_eq!(zone.offer(hexagons[0]), Err(Refusal::DuplicateInput { index: 1 }));
/// assert_eq!(zone.cells(), [hexagons[0]]);
/// assert!(matches!(zone.read_out()?, Dissolution::Outlined(_)));
///
/// zone.offer(hexagons[1])?;
/// assert_eq!(zone.read_out()?, Dissolution::Closed);
/// # Ok::<(), Refusal>(())
/// ```
#[derive(Debug, Clone)]
pub struct Zone<'t> {
    table: &'t EdgeTable,
    memory: Memory,
}

impl<'t> Zone<'t> {
    pub(crate) const fn new(table: &'t EdgeTable, memory: Memory) -> Self {
        Self { table, memory }
    }

    /// Takes one more cell.
    ///
    /// # Errors
    ///
    /// A [`Refusal`] of the cell, after which the zone is what it was.
    pub fn offer(&mut self, cell: u64) -> Result<(), Refusal> {
        calls::offer(self.table, &mut self.memory, cell)
    }

    /// The outline of the cells that were accepted, in whatever order they came. The zone stays as it was; its marks serve as scratch.
    ///
    /// # Errors
    ///
    /// None on a zone that only these calls have touched; the library checks it all the same.
    pub fn read_out(&mut self) -> Result<Dissolution, Refusal> {
        let mut out = Outputs::new(self.table.rows());
        calls::read_out(self.table, &mut self.memory, &mut out)?;
        Ok(Dissolution::from_outputs(&out))
    }

    /// The cells that were accepted, in their order.
    #[must_use]
    pub fn cells(&self) -> &[u64] {
        let held = self.memory.head.get(1).map_or(0, |&held| held as usize);
        self.memory.cells.get(..held).unwrap_or_default()
    }

    /// All that the zone is, to be kept over a restart: [`Solvent::reopen`](crate::Solvent::reopen) takes it back. The bytes are those of
    /// `zone_standing` in the C header: 8 and 20 a place, 16 a slot, 8 a row.
    ///
    /// ```
    /// use outliner::{EdgeTable, Refusal, SolventBuilder};
    /// # let hexagons = [0x8001fffffffffff, 0x8003fffffffffff];
    /// # let edges = (1..=6).flat_map(|side| hexagons.map(|cell| cell + (1 << 59) + (side << 56))).collect();
    /// # let table = EdgeTable::new(edges, (0..12).map(|row| row ^ 1).collect(), vec![1.0; 12]);
    /// let solvent = SolventBuilder::new().build(&table);
    /// let mut zone = solvent.open()?;
    /// zone.offer(hexagons[0])?;
    /// let kept = zone.to_bytes();
    ///
    /// // After a restart the broker sends the cell again.
    /// let mut zone = solvent.reopen(&kept)?;
    /// assert_eq!(zone.offer(hexagons[0]), Err(Refusal::DuplicateInput { index: 1 }));
    /// # Ok::<(), Refusal>(())
    /// ```
    #[must_use]
    pub fn to_bytes(&self) -> Vec<u8> {
        self.memory.to_bytes()
    }
}
