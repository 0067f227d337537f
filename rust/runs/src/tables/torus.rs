//! Hand-made tables by digit arithmetic: hexagon base cells that all lie the same way on a torus, and their descendants (aperture 7; the unit
//! vectors of the digits; odd resolutions turned one way and even ones the other). No such arrangement exists on the sphere, but every rule
//! of the table holds, and every outline is a closed curve.
use super::{Given, table_of_pairs};
use crate::{
    random::Random,
    rules::cells::{edge, is_pentagon},
};
use std::collections::BTreeMap;

type Point = (i64, i64);

/// Where each digit leads.
const UNITS: [Point; 7] = [(0, 0), (-1, -1), (0, 1), (-1, 0), (1, 0), (0, -1), (1, 1)];

struct Torus {
    periods: (Point, Point),
    cells: BTreeMap<Point, u64>,
}

/// The torus of `width` by `height` base cells at `resolution`.
pub fn torus(width: i64, height: i64, resolution: u32, random: &mut Random) -> Given {
    let torus = Torus::new(width, height, resolution);
    let mut pairs = Vec::new();
    for (place, cell) in &torus.cells {
        // Each pair once: digits 4, 5 and 6 lead the opposite way to 3, 2 and 1.
        for direction in 1..=3 {
            pairs.push((edge(*cell, direction), edge(torus.neighbour(*place, direction as usize), 7 - direction)));
        }
    }
    let table = table_of_pairs(&pairs, |_| random.term());
    Given::new(format!("torus of {width} by {height} base cells at resolution {resolution}"), table)
}

impl Torus {
    fn new(width: i64, height: i64, resolution: u32) -> Self {
        let mut hexagons = (0..122_u64).map(base_cell).filter(|cell| !is_pentagon(*cell));
        let mut periods = ((width, 0), (0, height));
        for level in 1..=resolution {
            periods = (down(periods.0, level), down(periods.1, level));
        }
        let mut torus = Self { periods, cells: BTreeMap::new() };
        for y in 0..height {
            for x in 0..width {
                let base = hexagons.next().expect("at most 110 base cells");
                torus.add_descendants((x, y), base, 0, resolution);
            }
        }
        torus
    }

    fn add_descendants(&mut self, place: Point, cell: u64, level: u32, resolution: u32) {
        if level == resolution {
            let previous = self.cells.insert(self.reduce(place), cell);
            assert!(previous.is_none(), "two cells in one place");
            return;
        }
        let (x, y) = down(place, level + 1);
        for (digit, unit) in UNITS.iter().enumerate() {
            let child = child(cell, level + 1, digit as u64);
            self.add_descendants((x + unit.0, y + unit.1), child, level + 1, resolution);
        }
    }

    fn neighbour(&self, (x, y): Point, direction: usize) -> u64 {
        let unit = UNITS[direction];
        self.cells[&self.reduce((x + unit.0, y + unit.1))]
    }

    fn reduce(&self, (x, y): Point) -> Point {
        let (a, b) = self.periods;
        let size = a.0 * b.1 - a.1 * b.0;
        let s = (x * b.1 - y * b.0).div_euclid(size);
        let t = (a.0 * y - a.1 * x).div_euclid(size);
        (x - s * a.0 - t * b.0, y - s * a.1 - t * b.1)
    }
}

/// The same point, in the units of the next finer level.
fn down((x, y): Point, level: u32) -> Point {
    if level % 2 == 1 { (2 * x + y, -x + 3 * y) } else { (3 * x - y, x + 2 * y) }
}

pub fn base_cell(number: u64) -> u64 {
    (1 << 59) | (number << 45) | ((1 << 45) - 1)
}

/// The child of a cell of resolution `level` − 1.
pub fn child(cell: u64, level: u32, digit: u64) -> u64 {
    let at = 3 * (15 - level);
    ((cell & !(7 << at)) | (digit << at)) + (1 << 52)
}

/// The ancestor of a cell, at a resolution that is not finer.
pub fn ancestor(cell: u64, resolution: u32) -> u64 {
    let unused = 3 * (15 - resolution);
    (cell & !(15 << 52)) | (u64::from(resolution) << 52) | ((1 << unused) - 1)
}
