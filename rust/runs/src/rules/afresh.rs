//! Standing edges, successors and groups from the accepted cells alone, by their definitions: no slots, no links kept, no parents.
use super::{
    rings::{ReadOut, put_together},
    table::Table,
};
use std::collections::BTreeMap;

/// A given row: the place of its cell, and the row that follows in the cell's outline.
struct Given {
    place: usize,
    next: usize,
}

/// None where an outline's edge is not in the table.
fn given(table: &Table, cells: &[u64]) -> Option<BTreeMap<usize, Given>> {
    let mut given = BTreeMap::new();
    for (place, cell) in cells.iter().enumerate() {
        let rows = table.outline(*cell).into_iter().collect::<Option<Vec<_>>>()?;
        for (i, row) in rows.iter().enumerate() {
            given.insert(*row, Given { place, next: rows[(i + 1) % rows.len()] });
        }
    }
    Some(given)
}

/// It is given and its reverse isn't.
fn stands(table: &Table, given: &BTreeMap<usize, Given>, row: usize) -> bool {
    given.contains_key(&row) && !given.contains_key(&table.reverse_of(row))
}

/// The rows that stand.
pub fn standing(table: &Table, cells: &[u64]) -> Option<Vec<usize>> {
    let given = given(table, cells)?;
    Some(given.keys().copied().filter(|row| stands(table, &given, *row)).collect())
}

/// What read out shows once these cells, and no others, have been accepted in this order.
pub fn dissolve(table: &Table, cells: &[u64]) -> Option<ReadOut> {
    let given = given(table, cells)?;
    let successor = |row: usize| {
        let mut next = given[&row].next;
        while !stands(table, &given, next) {
            next = given[&table.reverse_of(next)].next;
        }
        next
    };
    let rings = standing(table, cells)?.into_iter().map(|row| (row, successor(row))).collect();
    let groups = groups(table, cells.len(), &given);
    Some(put_together(table, cells.len(), &rings, |row| groups[given[row].place]))
}

/// For each cell the lowest place that a chain of cells joins it with, each next two holding some edge and its reverse.
fn groups(table: &Table, cells: usize, given: &BTreeMap<usize, Given>) -> Vec<usize> {
    let mut joined = vec![Vec::new(); cells];
    for (row, Given { place, .. }) in given {
        if let Some(other) = given.get(&table.reverse_of(*row)) {
            joined[*place].push(other.place);
        }
    }
    let mut groups = vec![None; cells];
    for lowest in 0..cells {
        let mut reached = vec![lowest];
        while let Some(place) = reached.pop() {
            if groups[place].is_none() {
                groups[place] = Some(lowest);
                reached.extend(&joined[place]);
            }
        }
    }
    groups.into_iter().flatten().collect()
}
