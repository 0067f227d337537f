//! "State rules for 9".
use super::{
    Verdict,
    cells::{lies_under, owner},
    lists::{self, Kept},
    memory::Memory,
    refuse,
    table::Table,
};

/// Refusal 9.
pub fn check(table: &Table, memory: &Memory) -> Verdict {
    if is_sound(table, memory) { Ok(()) } else { refuse(9, 0) }
}

fn is_sound(table: &Table, memory: &Memory) -> bool {
    // The later rules read what the earlier ones allow.
    memory.held() <= memory.places()
        && held_cells_pass(table, memory)
        && (0..table.rows()).all(|row| row_is_sound(memory, row))
        && (0..memory.slots()).all(|slot| slot_is_sound(table, memory, slot))
        && (0..table.rows()).all(|row| !(holds(memory, row) && holds(memory, table.reverse_of(row))))
        && memory.cell_mark.iter().chain(&memory.row_mark).all(|mark| *mark == 0)
        && groups_are_sound(memory)
}

fn held_cells_pass(table: &Table, memory: &Memory) -> bool {
    let kept = match memory.head[0] {
        0 => Kept::Even,
        1 => Kept::Mixed,
        _ => return false,
    };
    lists::check(kept, table.target(), memory.held_cells()).is_ok()
}

fn holds(memory: &Memory, row: usize) -> bool {
    memory.slot_of(row).is_some()
}

fn is_used(memory: &Memory, slot: u32) -> bool {
    memory.slot_row.get(slot as usize).is_some_and(|row| *row != 0)
}

fn row_is_sound(memory: &Memory, row: usize) -> bool {
    memory.slot_of(row).is_none_or(|slot| slot < memory.slots() && memory.row_in(slot) == Some(row))
}

fn slot_is_sound(table: &Table, memory: &Memory, slot: usize) -> bool {
    let (cell, prev, next) = (memory.slot_cell[slot] as usize, memory.prev[slot], memory.next[slot]);
    let Some(row) = memory.row_in(slot) else {
        return (cell, prev, next) == (0, 0, 0);
    };
    let linked = is_used(memory, prev)
        && is_used(memory, next)
        && memory.next[prev as usize] as usize == slot
        && memory.prev[next as usize] as usize == slot;
    let owned = || {
        let (cell, owner) = (memory.cells[cell], owner(table.edges[row]));
        owner == cell || lies_under(owner, cell)
    };
    row < table.rows() && memory.slot_of(row) == Some(slot) && linked && cell < memory.held() && owned()
}

fn groups_are_sound(memory: &Memory) -> bool {
    let held = memory.held();
    let rises = |place: usize| {
        let parent = memory.parent[place] as usize;
        parent < held && (parent == place || memory.rank[parent] > memory.rank[place])
    };
    let roots = (0..held).filter(|place| memory.parent[*place] as usize == *place).count();
    let ranks = memory.rank[..held].iter().map(|rank| u64::from(*rank)).sum::<u64>();
    (0..held).all(rises) && ranks <= (held - roots) as u64
}
