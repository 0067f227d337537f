//! The library's calls at full size, on slices of numbers. include/zone_outliner.h documents each.
#[path = "../../../outliner/src/calls/exports.rs"]
mod declared;

use crate::rules::{full::Outputs, memory::Memory, table::Table};
use declared::{call, zo_dissolve, zo_offer, zo_open, zo_read_out};

pub fn open(table: &Table, memory: &mut Memory, mode: u64) -> u64 {
    call!(zo_open, table, memory, mode as usize)
}

pub fn offer(table: &Table, memory: &mut Memory, cell: u64) -> u64 {
    call!(zo_offer, table, memory, cell)
}

pub fn read_out(table: &Table, memory: &mut Memory, out: &mut Outputs) -> u64 {
    call!(zo_read_out, table, memory => out)
}

pub fn dissolve(table: &Table, memory: &mut Memory, list: &[u64], out: &mut Outputs, mode: u64) -> u64 {
    call!(zo_dissolve, table, memory, list.into() => out, mode as usize)
}
