//! What is read out of a zone.
use crate::calls::Outputs;

/// What a zone dissolves into.
#[derive(Debug, Clone, PartialEq)]
pub enum Dissolution {
    /// No cells.
    Nothing,
    /// Cells, but no edge stands: they cover the sphere.
    Closed,
    /// Closed outlines.
    Outlined(Outline),
}

/// The polygons of a zone, the one with the largest outer ring first.
#[derive(Debug, Clone, PartialEq)]
pub struct Outline {
    polygons: Vec<Polygon>,
}

/// One group of touching cells: an outer ring and its holes, by area ascending.
#[derive(Debug, Clone, PartialEq)]
pub struct Polygon {
    exterior: Ring,
    interiors: Vec<Ring>,
}

/// A closed ring of standing edges.
#[derive(Debug, Clone, PartialEq)]
pub struct Ring {
    rows: Vec<u32>,
    area: f64,
    group: u32,
}

impl Outline {
    /// The polygons.
    #[must_use]
    pub fn polygons(&self) -> &[Polygon] {
        &self.polygons
    }
}

impl Polygon {
    /// The outer ring.
    #[must_use]
    pub const fn exterior(&self) -> &Ring {
        &self.exterior
    }

    /// The holes.
    #[must_use]
    pub fn interiors(&self) -> &[Ring] {
        &self.interiors
    }
}

impl Ring {
    /// The rows of its edges in the table, in their order around, from the lowest on.
    #[must_use]
    pub fn rows(&self) -> &[u32] {
        &self.rows
    }

    /// What it encloses, in steradians.
    #[must_use]
    pub const fn area(&self) -> f64 {
        self.area
    }

    /// The lowest place among the cells of its group.
    #[must_use]
    pub const fn group(&self) -> u32 {
        self.group
    }
}

impl Dissolution {
    /// The answer that an accepted call left in its outputs.
    pub(crate) fn from_outputs(out: &Outputs) -> Self {
        let [kind, _, rings, _] = out.summary;
        match kind {
            0 => Self::Nothing,
            1 => Self::Closed,
            _ => Self::Outlined(Outline { polygons: polygons((0..rings as usize).filter_map(|i| ring(out, i))) }),
        }
    }
}

fn ring(out: &Outputs, i: usize) -> Option<Ring> {
    let start = *out.start.get(i)? as usize;
    let end = start.checked_add(*out.size.get(i)? as usize)?;
    Some(Ring { rows: out.edges.get(start..end)?.to_vec(), area: *out.area.get(i)?, group: *out.group.get(i)? })
}

/// The rings of a polygon follow each other, the outer first, and no two polygons have the same group.
fn polygons(rings: impl Iterator<Item = Ring>) -> Vec<Polygon> {
    let mut polygons: Vec<Polygon> = Vec::new();
    for ring in rings {
        match polygons.last_mut() {
            Some(polygon) if polygon.exterior.group == ring.group => polygon.interiors.push(ring),
            _ => polygons.push(Polygon { exterior: ring, interiors: Vec::new() }),
        }
    }
    polygons
}
