//! Stand-in for the names of `geo` that the crate's texts use. Coordinates stand for table rows, so conversion to degrees is the identity.

#[derive(Clone, Copy, Debug, PartialEq)]
pub struct Coord {
    pub x: f64,
    pub y: f64,
}

#[derive(Clone, Debug, PartialEq)]
pub struct LineString(pub Vec<Coord>);

impl LineString {
    pub fn new(coords: Vec<Coord>) -> Self {
        Self(coords)
    }

    /// The first coordinate is repeated at the end.
    fn close(&mut self) {
        if self.0.first() != self.0.last() {
            self.0.push(self.0[0]);
        }
    }
}

#[derive(Clone, Debug, PartialEq)]
pub struct Polygon {
    exterior: LineString,
    interiors: Vec<LineString>,
}

impl Polygon {
    pub fn new(mut exterior: LineString, mut interiors: Vec<LineString>) -> Self {
        exterior.close();
        interiors.iter_mut().for_each(LineString::close);
        Self { exterior, interiors }
    }
    pub fn exterior(&self) -> &LineString {
        &self.exterior
    }
    pub fn interiors(&self) -> &[LineString] {
        &self.interiors
    }
}

#[derive(Clone, Debug, PartialEq)]
pub struct MultiPolygon(pub Vec<Polygon>);

impl MultiPolygon {
    pub fn new(polygons: Vec<Polygon>) -> Self {
        Self(polygons)
    }
}

pub trait ToDegrees {
    fn to_degrees_in_place(&mut self);
}

impl ToDegrees for MultiPolygon {
    #[inline]
    fn to_degrees_in_place(&mut self) {}
}

/// A polygon without interiors.
#[macro_export]
macro_rules! polygon {
    ($((x: $x:expr, y: $y:expr)),* $(,)?) => {
        $crate::Polygon::new(
            $crate::LineString::new(vec![$($crate::Coord { x: $x, y: $y }),*]),
            Vec::new(),
        )
    };
}
