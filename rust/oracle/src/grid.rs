//! Stand-ins for the index types, from the public H3 documents (bit layout, directions, the twelve pentagon base cells) and from the way
//! the texts call them. `reverse` and `boundary` read the lent table instead of the crate's neighbour tables and trigonometry.
use crate::{
    index::{bits, iterator::gosper::Gosper},
    table::{self, ROW_MARK},
};

/// H3 resolution, 0 to 15.
#[derive(Clone, Copy, Debug, Eq, PartialEq, Ord, PartialOrd, Hash)]
#[repr(u8)]
pub enum Resolution {
    Zero,
    One,
    Two,
    Three,
    Four,
    Five,
    Six,
    Seven,
    Eight,
    Nine,
    Ten,
    Eleven,
    Twelve,
    Thirteen,
    Fourteen,
    Fifteen,
}

const RESOLUTIONS: [Resolution; 16] = {
    use Resolution::*;
    [Zero, One, Two, Three, Four, Five, Six, Seven, Eight, Nine, Ten, Eleven, Twelve, Thirteen, Fourteen, Fifteen]
};

impl Resolution {
    #[inline]
    pub fn new(value: u8) -> Option<Self> {
        RESOLUTIONS.get(usize::from(value)).copied()
    }
    /// Odd resolutions are Class III.
    #[inline]
    pub const fn is_class3(self) -> bool {
        self as u8 & 1 == 1
    }
    #[inline]
    pub fn succ(self) -> Option<Self> {
        Self::new(self as u8 + 1)
    }
    #[inline]
    pub fn pred(self) -> Option<Self> {
        (self as u8).checked_sub(1).and_then(Self::new)
    }
    /// Inclusive at both ends; empty where `start` is finer than `end`.
    #[inline]
    pub fn range(start: Self, end: Self) -> impl DoubleEndedIterator<Item = Self> {
        (start as u8..=end as u8).map(|r| RESOLUTIONS[usize::from(r)])
    }
}

impl From<Resolution> for u8 {
    #[inline]
    fn from(value: Resolution) -> Self {
        value as Self
    }
}

impl From<Resolution> for usize {
    #[inline]
    fn from(value: Resolution) -> Self {
        value as Self
    }
}

/// H3 digits.
#[derive(Clone, Copy, Debug, Eq, PartialEq, Ord, PartialOrd, Hash)]
#[repr(u8)]
pub enum Direction {
    Center = 0,
    K = 1,
    J = 2,
    JK = 3,
    I = 4,
    IK = 5,
    IJ = 6,
}

impl From<Direction> for u8 {
    #[inline]
    fn from(value: Direction) -> Self {
        value as Self
    }
}

/// A cell edge, 1 to 6: the number of the direction it faces.
#[derive(Clone, Copy, Debug, Eq, PartialEq, Ord, PartialOrd, Hash)]
pub struct Edge(pub(crate) u8);

impl From<Direction> for Edge {
    #[inline]
    fn from(value: Direction) -> Self {
        Self(value as u8)
    }
}

/// The mode field of an H3 number.
#[derive(Clone, Copy, Debug, Eq, PartialEq)]
#[repr(u8)]
pub enum IndexMode {
    Cell = 1,
    DirectedEdge = 2,
    Vertex = 4,
}

const PENTAGONS: [u32; 12] = [4, 14, 24, 38, 49, 58, 63, 72, 83, 97, 107, 117];

const PENTAGON_MASK: u128 = {
    let mut mask = 0;
    let mut i = 0;
    while i < 12 {
        mask |= 1 << PENTAGONS[i];
        i += 1;
    }
    mask
};

/// A cell number. It is not checked here: an invalid number is refused before the texts run.
#[derive(Clone, Copy, Debug, Eq, PartialEq, Ord, PartialOrd, Hash)]
pub struct CellIndex(pub u64);

impl CellIndex {
    #[inline]
    pub fn resolution(self) -> Resolution {
        RESOLUTIONS[usize::from((self.0 >> 52) as u8 & 0b1111)]
    }
    #[inline]
    pub fn base_cell(self) -> u8 {
        (self.0 >> 45) as u8 & 0x7f
    }
    #[inline]
    pub fn is_pentagon(self) -> bool {
        let unused = 3 * (15 - self.resolution() as u32);
        let digits = (self.0 & 0x1fff_ffff_ffff) >> unused;
        digits == 0 && (PENTAGON_MASK >> self.base_cell()) & 1 == 1
    }
    /// The ancestor at `resolution`; none where that is finer.
    #[inline]
    pub fn parent(self, resolution: Resolution) -> Option<Self> {
        (resolution <= self.resolution()).then(|| {
            let unused = 3 * (15 - resolution as u32);
            Self(bits::set_resolution(self.0, resolution) | ((1 << unused) - 1))
        })
    }
    #[inline]
    pub fn outline(self, resolution: Resolution) -> Gosper {
        Gosper::new(self, resolution)
    }
    /// The own edges in ring order: the walk at delta 0. The crate's `edges` is not among the given texts, and arc_set.rs links edges in the
    /// order given, so that it has to be a ring order.
    #[inline]
    pub fn edges(self) -> impl Iterator<Item = DirectedEdgeIndex> {
        Gosper::new(self, self.resolution())
    }
}

impl From<CellIndex> for u64 {
    #[inline]
    fn from(value: CellIndex) -> Self {
        value.0
    }
}

/// A directed edge number.
#[derive(Clone, Copy, Debug, Eq, PartialEq, Ord, PartialOrd, Hash)]
pub struct DirectedEdgeIndex(pub u64);

impl DirectedEdgeIndex {
    #[inline]
    pub fn new_unchecked(value: u64) -> Self {
        Self(value)
    }
    #[inline]
    pub fn reverse(self) -> Self {
        table::with(|t| Self(t.edges[t.reverse[t.row_or_panic(self.0)] as usize]))
    }
    /// Two vertices that stand for the table's row: the one that carries the row, and the end, which arc_set.rs leaves off.
    #[inline]
    pub fn boundary(self) -> [LatLng; 2] {
        table::with(|t| {
            let row = t.row_or_panic(self.0) as f64;
            [LatLng { lng: row, lat: ROW_MARK }; 2]
        })
    }
}

/// A vertex in radians.
#[derive(Clone, Copy, Debug)]
pub struct LatLng {
    lng: f64,
    lat: f64,
}

impl LatLng {
    #[inline]
    pub fn lng_radians(self) -> f64 {
        self.lng
    }
    #[inline]
    pub fn lat_radians(self) -> f64 {
        self.lat
    }
}
