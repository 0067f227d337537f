//! The library under test: its two byte entry points, and in `exports` its calls at full size.

#[cfg(exports)]
pub mod exports;

/// Whether the static library was there when this was built.
pub const AVAILABLE: bool = cfg!(all(subject, exports));

#[cfg(subject)]
mod linked {
    // A slice is two parameters, a pointer and a length in elements; neither may be null.
    unsafe extern "C" {
        fn zone_dissolve(
            table: *const u8,
            table_length: usize,
            cells: *const u8,
            cells_length: usize,
            out: *mut u8,
            out_length: usize,
            mode: u32,
            slots: u32,
            places: u32,
        ) -> u64;
        fn zone_standing(
            table: *const u8,
            table_length: usize,
            state: *mut u8,
            state_length: usize,
            out: *mut u8,
            out_length: usize,
            slots: u32,
            places: u32,
            call: u32,
            value: u64,
        ) -> u64;
    }

    pub fn dissolve(table: &[u8], cells: &[u8], out: &mut [u8], mode: u32, slots: u32, places: u32) -> u64 {
        let (to, room) = (out.as_mut_ptr(), out.len());
        // SAFETY: each pointer comes with the length of the slice it is taken from; only `out` is written, and is borrowed for it.
        unsafe {
            zone_dissolve(table.as_ptr(), table.len(), cells.as_ptr(), cells.len(), to, room, mode, slots, places)
        }
    }

    pub fn standing(
        table: &[u8],
        state: &mut [u8],
        out: &mut [u8],
        slots: u32,
        places: u32,
        call: u32,
        value: u64,
    ) -> u64 {
        let (held, size, to, room) = (state.as_mut_ptr(), state.len(), out.as_mut_ptr(), out.len());
        // SAFETY: as above; `state` and `out` are written, and are borrowed for it.
        unsafe { zone_standing(table.as_ptr(), table.len(), held, size, to, room, slots, places, call, value) }
    }
}

#[cfg(subject)]
pub use linked::{dissolve, standing};

/// Without the library, the rules stand in for it, so that a run still compares them with the oracle.
#[cfg(not(subject))]
pub use crate::rules::bytes::{dissolve, standing};
#[cfg(not(exports))]
pub use crate::rules::full as exports;

/// The walk alone: all edges of an outline, by exclusive or. For the benchmark beside the Rust's.
#[cfg(all(h3o, walk))]
pub fn walk(cell: u64, target: u32) -> Option<u64> {
    unsafe extern "C" {
        fn zone_walk(cell: u64, target: usize) -> u64;
    }
    // SAFETY: it takes any numbers and touches no memory of ours.
    Some(unsafe { zone_walk(cell, target as usize) })
}

#[cfg(all(h3o, not(walk)))]
pub fn walk(_: u64, _: u32) -> Option<u64> {
    None
}
