//! `Solvent::dissolve` over a lent table, with the rows read back from the polygons.
use crate::{
    CellIndex, Resolution,
    error::DissolutionError,
    geom::solvent::{Solvent, SolventBuilder},
    math,
    table::{ROW_MARK, Table, lend},
};
use geo::{LineString, MultiPolygon};
use ordered_float::OrderedFloat;
use std::cmp::Reverse;

#[derive(Clone, Copy, Debug, PartialEq, Eq)]
pub enum Mode {
    Even,
    Mixed(Resolution),
}

impl Mode {
    pub fn solvent(self) -> Solvent {
        match self {
            Self::Even => SolventBuilder::new().build(),
            Self::Mixed(target) => SolventBuilder::new().enable_heterogeneous_support(target).build(),
        }
    }
}

#[derive(Clone, Debug)]
pub struct Ring {
    /// Rows in ring order, from the lowest on.
    pub rows: Vec<u32>,
    pub area: f64,
}

#[derive(Clone, Debug)]
pub enum Answer {
    Refused(DissolutionError),
    Nothing,
    Closed,
    /// Polygons, each a list of rings, outer first.
    Outline(Vec<Vec<Ring>>),
}

/// What the unchanged texts answer, with ties in document 01's order.
pub fn dissolve(table: &Table, mode: Mode, cells: &[u64]) -> Answer {
    lend(table, || match mode.solvent().dissolve(cells.iter().map(|cell| CellIndex(*cell))) {
        Err(error) => Answer::Refused(error),
        Ok(geometry) => settle_ties(read(&geometry)),
    })
}

fn read(geometry: &MultiPolygon) -> Answer {
    let Some(first) = geometry.0.first() else {
        return Answer::Nothing;
    };
    if first.exterior().0[0].y < ROW_MARK {
        return Answer::Closed;
    }
    let rings = |p: &geo::Polygon| std::iter::once(p.exterior()).chain(p.interiors()).map(ring).collect();
    Answer::Outline(geometry.0.iter().map(rings).collect())
}

fn ring(line: &LineString) -> Ring {
    Ring { rows: math::rows_of(line.0.iter().map(|c| c.x)), area: math::linear_ring_area(&line.0) }
}

/// Equal areas go by lowest row; the crate leaves their order open. All else must be in the crate's own order, so that it is compared too.
fn settle_ties(answer: Answer) -> Answer {
    let Answer::Outline(mut polygons) = answer else {
        return answer;
    };
    let outer = |p: &Vec<Ring>| Reverse(OrderedFloat(p[0].area));
    assert!(polygons.is_sorted_by_key(outer), "the crate orders polygons by the area of their outer");
    for rings in &mut polygons {
        assert!(rings.is_sorted_by_key(|r| OrderedFloat(r.area)), "the crate orders rings by area");
        rings.sort_by_key(|r| (OrderedFloat(r.area), r.rows[0]));
    }
    polygons.sort_by_key(|p| (outer(p), p[0].rows[0]));
    Answer::Outline(polygons)
}
