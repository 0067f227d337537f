//! "Standing edges, rings, groups": what an accepted cell leaves in the memory.
use super::{Verdict, memory::Memory, refuse, table::Table};
use std::collections::BTreeSet;

/// Refusals 5, 6 and 7 of the cell with this index; then its rows.
pub fn check_outline(table: &Table, memory: &Memory, cell: u64, index: usize) -> Verdict<Vec<usize>> {
    let rows = table.outline(cell);
    let Some(rows) = rows.into_iter().collect::<Option<Vec<_>>>() else {
        return refuse(5, index);
    };
    if rows.iter().collect::<BTreeSet<_>>().len() < rows.len() {
        return refuse(6, index);
    }
    if memory.free_slots().count() < rows.len() {
        return refuse(7, index);
    }
    Ok(rows)
}

/// The cell is taken: its outline placed, then its pairs cancelled.
pub fn take(table: &Table, memory: &mut Memory, cell: u64, rows: &[usize]) {
    let place = memory.held();
    memory.head[1] += 1;
    memory.cells[place] = cell;
    memory.parent[place] = place as u32;
    memory.rank[place] = 0;
    put_outline(memory, place, rows);
    cancel(table, memory, rows);
}

/// The i-th edge takes the i-th lowest free slot.
fn put_outline(memory: &mut Memory, place: usize, rows: &[usize]) {
    let slots = memory.free_slots().take(rows.len()).collect::<Vec<_>>();
    for (i, (&slot, &row)) in slots.iter().zip(rows).enumerate() {
        memory.slot_row[slot] = row as u32 + 1;
        memory.row_slot[row] = slot as u32 + 1;
        memory.slot_cell[slot] = place as u32;
        memory.next[slot] = slots[(i + 1) % slots.len()] as u32;
        memory.prev[slot] = slots[(i + slots.len() - 1) % slots.len()] as u32;
    }
}

/// An edge cancels when a slot holds its reverse. The links left are those of the successor rule over the links before, and each pair
/// unites the cell of the edge met first with the cell of its reverse.
fn cancel(table: &Table, memory: &mut Memory, rows: &[usize]) {
    let before = memory.clone();
    let reverse_slot = |slot: usize| before.row_in(slot).and_then(|row| before.slot_of(table.reverse_of(row)));
    let stays = |slot: &usize| before.slot_row[*slot] != 0 && reverse_slot(*slot).is_none();

    for slot in (0..before.slots()).filter(stays) {
        let mut next = before.next[slot] as usize;
        while let Some(reverse) = reverse_slot(next) {
            next = before.next[reverse] as usize;
        }
        memory.next[slot] = next as u32;
        memory.prev[next] = slot as u32;
    }

    for row in rows {
        // An edge that has gone with an earlier one is in no slot any more.
        let (Some(slot), Some(reverse)) = (memory.slot_of(*row), memory.slot_of(table.reverse_of(*row))) else {
            continue;
        };
        unite(memory, memory.slot_cell[slot] as usize, memory.slot_cell[reverse] as usize);
        free(memory, slot);
        free(memory, reverse);
    }
}

fn free(memory: &mut Memory, slot: usize) {
    if let Some(row) = memory.row_in(slot) {
        memory.row_slot[row] = 0;
    }
    for numbers in [&mut memory.slot_row, &mut memory.slot_cell, &mut memory.prev, &mut memory.next] {
        numbers[slot] = 0;
    }
}

/// Find with path halving, as the Rust does it.
fn find(memory: &mut Memory, place: usize) -> usize {
    let mut at = place;
    while memory.parent[at] as usize != at {
        memory.parent[at] = memory.parent[memory.parent[at] as usize];
        at = memory.parent[at] as usize;
    }
    at
}

/// The root of lower rank goes under the other, the second under the first where they are equal; the rank grows at every union.
fn unite(memory: &mut Memory, a: usize, b: usize) {
    let (a, b) = (find(memory, a), find(memory, b));
    if a == b {
        return;
    }
    let (top, low) = if memory.rank[a] < memory.rank[b] { (b, a) } else { (a, b) };
    memory.parent[low] = top as u32;
    memory.rank[top] += 1;
}
