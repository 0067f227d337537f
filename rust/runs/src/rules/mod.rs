//! Document 01's rules, stated a second time: in plain Rust, from the document's words, with sets, maps and slow loops where they are the
//! plainest. It shares no code with the Rattle crates or with h3o, so that an error would have to be made twice to stay unseen; what the
//! document takes from h3o by name (the adder's operations, the steps of find and union) is written out again. The lent memory has the
//! library's layout, so that every byte can be compared.
pub mod afresh;
pub mod bytes;
pub mod calls;
pub mod cells;
#[cfg(test)]
mod examples;
pub mod full;
pub mod lists;
pub mod memory;
pub mod pool;
pub mod rings;
pub mod state;
pub mod table;
pub mod walk;

/// A refusal of document 01's table: its number, and what it also returns.
#[derive(Clone, Copy, Debug, PartialEq, Eq)]
pub struct Refusal {
    pub number: u32,
    pub index: usize,
}

pub type Verdict<T = ()> = Result<T, Refusal>;

pub fn refuse<T>(number: u32, index: usize) -> Verdict<T> {
    Err(Refusal { number, index })
}

/// Refused with `number` where there is an index to name.
pub fn refuse_any(number: u32, found: Option<usize>) -> Verdict {
    found.map_or(Ok(()), |index| refuse(number, index))
}

/// 0 when carried out, else number · 2^32 + index.
pub fn answer(verdict: Verdict) -> u64 {
    match verdict {
        Ok(()) => 0,
        Err(Refusal { number, index }) => u64::from(number) << 32 | index as u64,
    }
}
