//! The oracle: the texts of h3o 0.11.1 that were ported (solvent/mod.rs, arc_set.rs, gosper.rs, area.rs, fp_adder.rs), compiled unchanged
//! over stand-ins for what they lean on. `geom::solvent`, `index::iterator::gosper`, `math::area` and `math::fp_adder` are the texts;
//! everything else here is a stand-in: the index types from the public H3 bit layout, reverse and area term from the lent table.
#![cfg_attr(not(h3o), allow(unused))]

/// Whether the texts were there when this was built.
pub const AVAILABLE: bool = cfg!(h3o);

#[cfg(h3o)]
pub mod geom {
    include!(concat!(env!("OUT_DIR"), "/geom.rs"));
}

#[cfg(h3o)]
pub mod index {
    pub mod bits;
    pub mod iterator {
        include!(concat!(env!("OUT_DIR"), "/gosper.rs"));
    }
}

#[cfg(h3o)]
pub mod math;

#[cfg(h3o)]
mod grid;
#[cfg(h3o)]
pub use grid::{CellIndex, DirectedEdgeIndex, Direction, Edge, IndexMode, LatLng, Resolution};

#[cfg(h3o)]
pub mod error {
    /// Stand-in for the one type of `h3o::error` that the solvent names.
    #[derive(Clone, Copy, Debug, Eq, PartialEq)]
    pub enum DissolutionError {
        DuplicateInput,
        UnsupportedResolution,
    }
}

#[cfg(h3o)]
pub mod dissolve;
#[cfg(h3o)]
pub mod table;
