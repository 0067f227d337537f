//! Stand-in for `h3o::math` around the unchanged area.rs and fp_adder.rs. A ring of rows is turned so that its lowest row comes first, and then
//! summed by the unchanged `area::linear_ring_area`: its loop, its closing step, its adder and its 4π rule run as they are. Only the
//! trigonometry underneath is replaced: while a ring of rows is summed, `atan2` hands out −term/2, so that the text, which multiplies by −2,
//! gets the row's term exactly.
use crate::table::{self, ROW_MARK};
use std::cell::RefCell;

include!(concat!(env!("OUT_DIR"), "/area.rs"));
include!(concat!(env!("OUT_DIR"), "/fp_adder.rs"));

pub use area::Coord2d;
pub use fp_adder::FloatAdder;

// What std gives; whether the crate uses exactly these is not in the given texts. They matter for real coordinates alone.
#[inline]
fn sin_cos(x: f64) -> (f64, f64) {
    x.sin_cos()
}
#[inline]
fn mul_add(a: f64, b: f64, c: f64) -> f64 {
    a.mul_add(b, c)
}
#[inline]
fn atan2(y: f64, x: f64) -> f64 {
    FEED.with_borrow_mut(|feed| feed.pop().map_or_else(|| y.atan2(x), |term| -term / 2.))
}

thread_local! {
    /// The terms of the ring that is being summed, last first.
    static FEED: RefCell<Vec<f64>> = const { RefCell::new(Vec::new()) };
}

#[derive(Clone, Copy)]
struct Origin;

impl Coord2d for Origin {
    fn xy(self) -> (f64, f64) {
        (0., 0.)
    }
}

/// In front of the unchanged `area::linear_ring_area`.
pub fn linear_ring_area<C: Coord2d + Copy>(ring: &[C]) -> f64 {
    if ring.first().is_none_or(|c| c.xy().1 < ROW_MARK) {
        return area::linear_ring_area(ring);
    }
    let rows = rows_of(ring.iter().map(|c| c.xy().0));
    let terms = table::with(|t| rows.iter().map(|r| t.area[*r as usize]).collect::<Vec<_>>());
    // −2·(−t/2) is t exactly unless t/2 falls under the normal range.
    if terms.iter().any(|t| *t != 0. && t.abs() < 2. * f64::MIN_POSITIVE) {
        return plain_sum(terms.into_iter());
    }
    let origins = vec![Origin; terms.len()];
    FEED.set(terms.into_iter().rev().collect());
    let sum = area::linear_ring_area(&origins);
    assert!(FEED.take().is_empty(), "every term is added");
    sum
}

/// The rows that a ring's longitudes stand for, from the lowest on. A closed ring repeats its first at the end.
pub fn rows_of(longitudes: impl Iterator<Item = f64>) -> Vec<u32> {
    let mut rows = longitudes.map(|x| x as u32).collect::<Vec<_>>();
    if rows.len() > 1 && rows.first() == rows.last() {
        rows.pop();
    }
    let lowest = (0..rows.len()).min_by_key(|i| rows[*i]).unwrap_or(0);
    rows.rotate_left(lowest);
    rows
}

/// The same sum without area.rs, for terms under 2^−1021.
fn plain_sum(terms: impl Iterator<Item = f64>) -> f64 {
    let mut adder = FloatAdder::default();
    for term in terms {
        adder += term;
    }
    if f64::from(adder) < 0. {
        adder += 4. * core::f64::consts::PI;
    }
    adder.into()
}
