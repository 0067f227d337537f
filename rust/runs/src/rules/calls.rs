//! The four calls, each with its refusals in their order. Lengths, capacities and modes (refusal 10) are tested where numbers come in, in
//! bytes.rs and full.rs.
use super::{
    Verdict,
    lists::{self, Kept},
    memory::Memory,
    pool,
    rings::{self, ReadOut},
    state,
    table::Table,
};

pub fn open(table: &Table, memory: &mut Memory, kept: Kept) -> Verdict {
    table.check()?;
    memory.open(kept as u32);
    Ok(())
}

pub fn offer(table: &Table, memory: &mut Memory, cell: u64) -> Verdict {
    table.check()?;
    state::check(table, memory)?;
    let kept = if memory.head[0] == 1 { Kept::Mixed } else { Kept::Even };
    lists::check_offer(kept, table.target(), memory.places(), memory.held_cells(), cell)?;
    let rows = pool::check_outline(table, memory, cell, memory.held())?;
    pool::take(table, memory, cell, &rows);
    Ok(())
}

pub fn read_out(table: &Table, memory: &Memory) -> Verdict<ReadOut> {
    table.check()?;
    state::check(table, memory)?;
    Ok(rings::read(table, memory))
}

/// Dissolve in the memory of a standing state. Refused by 5, 6 or 7 it leaves that memory newly opened; refused earlier, as it was.
pub fn dissolve_in(table: &Table, memory: &mut Memory, kept: Kept, cells: &[u64]) -> Verdict<ReadOut> {
    table.check()?;
    lists::check_list(kept, table.target(), memory.places(), cells)?;
    memory.open(kept as u32);
    for (index, cell) in cells.iter().enumerate() {
        let rows = pool::check_outline(table, memory, *cell, index).inspect_err(|_| memory.open(kept as u32))?;
        pool::take(table, memory, *cell, &rows);
    }
    Ok(rings::read(table, memory))
}

pub fn dissolve(table: &Table, kept: Kept, cells: &[u64], slots: usize, places: usize) -> Verdict<ReadOut> {
    dissolve_in(table, &mut Memory::opened(kept as u32, table.rows(), slots, places), kept, cells)
}
