//! Stand-in for `ordered_float::OrderedFloat`: zeros equal, NaN equal to itself and above all.
use std::cmp::Ordering;

#[derive(Clone, Copy, Debug, Default)]
pub struct OrderedFloat<T>(pub T);

impl Ord for OrderedFloat<f64> {
    #[inline]
    fn cmp(&self, other: &Self) -> Ordering {
        self.0.partial_cmp(&other.0).unwrap_or_else(|| self.0.is_nan().cmp(&other.0.is_nan()))
    }
}

impl PartialOrd for OrderedFloat<f64> {
    #[inline]
    fn partial_cmp(&self, other: &Self) -> Option<Ordering> {
        Some(self.cmp(other))
    }
}

impl PartialEq for OrderedFloat<f64> {
    #[inline]
    fn eq(&self, other: &Self) -> bool {
        self.cmp(other) == Ordering::Equal
    }
}

impl Eq for OrderedFloat<f64> {}
