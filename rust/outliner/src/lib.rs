//! Dissolves sets of H3 cells into closed outlines: a safe face of the zone outliner's proved library, with the names of h3o.
//!
//! A zone is dissolved at once by [`Solvent::dissolve`], or stands in a [`Zone`] that is offered cells one by one and read out at any
//! time. Both answer the same. A call does its work or gives one [`Refusal`], and a refused offer changes nothing: a cell that comes
//! twice can never make a second outline.
//!
//! The library knows no globe. It takes the sides of cells from an [`EdgeTable`] of the resolution at which outlines are drawn, which
//! says for each side which row holds it seen from the other cell, and what it adds to the area of a ring.
//!
//! A call takes less than 1 MB of stack, of which a thread of std has two.
//!
//! ```
//! use outliner::{Dissolution, EdgeTable, SolventBuilder};
//!
//! // Two hexagons, each side of which faces the same side of the other: the edges 1 to 6 of both, ascending, and an area term each.
//! let cells = [0x8001fffffffffff, 0x8003fffffffffff];
//! let edges = (1..=6).flat_map(|side| cells.map(|cell| cell + (1 << 59) + (side << 56))).collect();
//! let reverse = (0..12).map(|row| row ^ 1).collect();
//! let table = EdgeTable::new(edges, reverse, vec![1.0; 12]);
//!
//! let solvent = SolventBuilder::new().build(&table);
//! let Dissolution::Outlined(outline) = solvent.dissolve([cells[0]])? else { unreachable!("one cell has an outline") };
//! assert_eq!(outline.polygons().len(), 1);
//! assert_eq!(outline.polygons()[0].exterior().rows(), [0, 8, 6, 10, 2, 4]);
//! assert_eq!(outline.polygons()[0].exterior().area(), 6.0);
//!
//! // Both cover the sphere of this table: every edge cancels.
//! assert_eq!(solvent.dissolve(cells)?, Dissolution::Closed);
//! # Ok::<(), outliner::Refusal>(())
//! ```
#![deny(unsafe_code)]
#![warn(missing_docs)]

#[allow(unsafe_code)]
mod calls;
mod dissolution;
mod refusal;
mod solvent;
mod table;
mod zone;

pub use dissolution::{Dissolution, Outline, Polygon, Ring};
pub use refusal::Refusal;
pub use solvent::{Solvent, SolventBuilder};
pub use table::EdgeTable;
pub use zone::Zone;
