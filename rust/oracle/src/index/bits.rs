//! Stand-in for `h3o::index::bits`, from the public H3 bit layout: mode at bit 59, edge at bit 56, resolution at bit 52, the digit of
//! resolution r at bit 3·(15 − r).
use crate::{Edge, IndexMode, Resolution};

#[inline]
const fn offset(resolution: Resolution) -> u32 {
    3 * (15 - resolution as u32)
}

/// `bits` with `value` in the field of `mask` at bit `at`.
#[inline]
const fn with_field(bits: u64, mask: u64, at: u32, value: u64) -> u64 {
    (bits & !(mask << at)) | (value << at)
}

#[inline]
pub const fn get_direction(bits: u64, resolution: Resolution) -> u8 {
    ((bits >> offset(resolution)) & 0b111) as u8
}

#[inline]
pub const fn set_direction(bits: u64, direction: u8, resolution: Resolution) -> u64 {
    with_field(bits, 0b111, offset(resolution), direction as u64)
}

#[inline]
pub const fn set_mode(bits: u64, mode: IndexMode) -> u64 {
    with_field(bits, 0b1111, 59, mode as u64)
}

#[inline]
pub const fn set_edge(bits: u64, edge: Edge) -> u64 {
    with_field(bits, 0b111, 56, edge.0 as u64)
}

#[inline]
pub const fn set_resolution(bits: u64, resolution: Resolution) -> u64 {
    with_field(bits, 0b1111, 52, resolution as u64)
}
