//! "Cells and edges as numbers".

const PENTAGON_BASE_CELLS: [u64; 12] = [4, 14, 24, 38, 49, 58, 63, 72, 83, 97, 107, 117];

/// The number in the `width` bits from bit `at` on.
fn field(x: u64, at: u32, width: u32) -> u64 {
    (x >> at) & ((1 << width) - 1)
}

pub fn edge_number(x: u64) -> u64 {
    field(x, 56, 3)
}

pub fn resolution(x: u64) -> u32 {
    field(x, 52, 4) as u32
}

pub fn base_cell(x: u64) -> u64 {
    field(x, 45, 7)
}

pub fn digit(x: u64, resolution: u32) -> u64 {
    field(x, 3 * (15 - resolution), 3)
}

pub fn is_cell(x: u64) -> bool {
    // Bit 63 and the mode in one: 0 and 1.
    field(x, 59, 5) == 1
        && edge_number(x) == 0
        && base_cell(x) <= 121
        && (1..=15).all(|r| if r <= resolution(x) { digit(x, r) <= 6 } else { digit(x, r) == 7 })
}

pub fn is_pentagon(cell: u64) -> bool {
    PENTAGON_BASE_CELLS.contains(&base_cell(cell)) && (1..=resolution(cell)).all(|r| digit(cell, r) == 0)
}

/// The edge's owner: the same number with mode 1 and no edge number.
pub fn owner(edge: u64) -> u64 {
    (edge & !(0xff << 56)) | (1 << 59)
}

pub fn is_edge(x: u64) -> bool {
    let lowest = if is_pentagon(owner(x)) { 2 } else { 1 };
    field(x, 59, 5) == 2 && (lowest..=6).contains(&edge_number(x)) && is_cell(owner(x))
}

/// Edge `number` of `cell`.
pub fn edge(cell: u64, number: u64) -> u64 {
    (cell & !(0xff << 56)) | (2 << 59) | (number << 56)
}

/// Cell `a` lies under `b`.
pub fn lies_under(a: u64, b: u64) -> bool {
    resolution(b) < resolution(a)
        && base_cell(a) == base_cell(b)
        && (1..=resolution(b)).all(|r| digit(a, r) == digit(b, r))
}
