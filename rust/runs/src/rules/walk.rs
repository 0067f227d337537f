//! "The walk": the edges of a cell's outline at the target resolution, in order.
use super::cells::{is_pentagon, resolution};

const WALK_DIGITS: [u64; 18] = [1, 1, 1, 5, 5, 5, 4, 4, 4, 6, 6, 6, 2, 2, 2, 3, 3, 3];
const EDGE_DIRECTIONS: [u64; 6] = [3, 1, 5, 4, 6, 2];

pub fn outline(cell: u64, target: u32) -> Vec<u64> {
    if target < resolution(cell) {
        return Vec::new();
    }
    let mut walk = Walk::new(cell, target);
    let steps = 6 * 3_usize.pow(target - resolution(cell));
    let mut edges = Vec::with_capacity(steps);
    for _ in 0..steps {
        if !(is_pentagon(cell) && walk.is_passed_over_by_a_pentagon()) {
            edges.push(walk.edge());
        }
        walk.step();
    }
    edges
}

struct Walk {
    cell: u64,
    target: u32,
    /// One for each resolution.
    positions: [usize; 16],
    edge_position: usize,
}

impl Walk {
    fn new(cell: u64, target: u32) -> Self {
        let first = |level: u32| match level {
            _ if level <= resolution(cell) + 1 => 0,
            _ if level % 2 == 1 => 14,
            _ => 16,
        };
        Self { cell, target, positions: std::array::from_fn(|level| first(level as u32)), edge_position: 0 }
    }

    fn digit(&self, level: u32) -> u64 {
        WALK_DIGITS[self.positions[level as usize]]
    }

    fn edge(&self) -> u64 {
        let mut digits = 0;
        for level in 1..=15 {
            digits = digits << 3
                | match level {
                    _ if level <= resolution(self.cell) => super::cells::digit(self.cell, level),
                    _ if level <= self.target => self.digit(level),
                    _ => 7,
                };
        }
        let direction = EDGE_DIRECTIONS[self.edge_position];
        2 << 59 | direction << 56 | u64::from(self.target) << 52 | super::cells::base_cell(self.cell) << 45 | digits
    }

    /// Its first child digit is 1; at delta 0, it is edge 1.
    fn is_passed_over_by_a_pentagon(&self) -> bool {
        let first_child = resolution(self.cell) + 1;
        if first_child <= self.target { self.digit(first_child) == 1 } else { EDGE_DIRECTIONS[self.edge_position] == 1 }
    }

    fn step(&mut self) {
        let changed = self.target > resolution(self.cell) && self.move_level(self.target);
        let back = if changed { 2 } else { 0 };
        self.edge_position = (self.edge_position + 6 - back + 1) % 6;
    }

    /// Moves a level, its parent first where that has to move; says whether its digit changed.
    fn move_level(&mut self, level: u32) -> bool {
        let before = self.digit(level);
        let position = self.positions[level as usize];
        let parent = level - 1;
        let moves_parent = position % 3 == level as usize % 2 && parent > resolution(self.cell);
        let back = if moves_parent && self.move_level(parent) { 6 } else { 0 };
        self.positions[level as usize] = (position + 18 - back + 1) % 18;
        self.digit(level) != before
    }
}
