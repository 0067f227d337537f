//! The library's calls at full size as C declares them, and `call`, which lends them memory, for any crate that links the library.
//! include/zone_outliner.h documents each.
use std::marker::PhantomData;

/// A slice as the library takes it: a pointer, then a length in elements.
#[repr(C)]
pub struct Shared<'a, T> {
    start: *const T,
    length: usize,
    lent: PhantomData<&'a [T]>,
}

impl<'a, T> From<&'a [T]> for Shared<'a, T> {
    fn from(slice: &'a [T]) -> Self {
        Self { start: slice.as_ptr(), length: slice.len(), lent: PhantomData }
    }
}

impl<'a, T> From<&'a mut [T]> for Shared<'a, T> {
    fn from(slice: &'a mut [T]) -> Self {
        Self::from(&*slice)
    }
}

/// The same of a slice that the library may write.
#[repr(C)]
pub struct Exclusive<'a, T> {
    start: *mut T,
    length: usize,
    lent: PhantomData<&'a mut [T]>,
}

impl<'a, T> From<&'a mut [T]> for Exclusive<'a, T> {
    fn from(slice: &'a mut [T]) -> Self {
        Self { start: slice.as_mut_ptr(), length: slice.len(), lent: PhantomData }
    }
}

// Slices come first: none may start as the sixth word of a call.
unsafe extern "C" {
    pub fn zo_open(
        edges: Shared<u64>,
        reverse: Shared<u32>,
        area: Shared<f64>,
        head: Exclusive<u32>,
        cells: Exclusive<u64>,
        parent: Exclusive<u32>,
        rank: Exclusive<u32>,
        cell_mark: Exclusive<u32>,
        slot_row: Exclusive<u32>,
        slot_cell: Exclusive<u32>,
        prev: Exclusive<u32>,
        next: Exclusive<u32>,
        row_slot: Exclusive<u32>,
        row_mark: Exclusive<u32>,
        mode: usize,
    ) -> u64;
    pub fn zo_offer(
        edges: Shared<u64>,
        reverse: Shared<u32>,
        area: Shared<f64>,
        head: Exclusive<u32>,
        cells: Exclusive<u64>,
        parent: Exclusive<u32>,
        rank: Exclusive<u32>,
        cell_mark: Exclusive<u32>,
        slot_row: Exclusive<u32>,
        slot_cell: Exclusive<u32>,
        prev: Exclusive<u32>,
        next: Exclusive<u32>,
        row_slot: Exclusive<u32>,
        row_mark: Exclusive<u32>,
        cell: u64,
    ) -> u64;
    pub fn zo_read_out(
        edges: Shared<u64>,
        reverse: Shared<u32>,
        area: Shared<f64>,
        head: Shared<u32>,
        cells: Shared<u64>,
        parent: Shared<u32>,
        rank: Shared<u32>,
        cell_mark: Exclusive<u32>,
        slot_row: Shared<u32>,
        slot_cell: Shared<u32>,
        prev: Shared<u32>,
        next: Shared<u32>,
        row_slot: Shared<u32>,
        row_mark: Exclusive<u32>,
        start: Exclusive<u32>,
        size: Exclusive<u32>,
        group: Exclusive<u32>,
        ring_area: Exclusive<f64>,
        ring_edges: Exclusive<u32>,
        summary: Exclusive<u64>,
    ) -> u64;
    pub fn zo_dissolve(
        edges: Shared<u64>,
        reverse: Shared<u32>,
        area: Shared<f64>,
        head: Exclusive<u32>,
        cells: Exclusive<u64>,
        parent: Exclusive<u32>,
        rank: Exclusive<u32>,
        cell_mark: Exclusive<u32>,
        slot_row: Exclusive<u32>,
        slot_cell: Exclusive<u32>,
        prev: Exclusive<u32>,
        next: Exclusive<u32>,
        row_slot: Exclusive<u32>,
        row_mark: Exclusive<u32>,
        list: Shared<u64>,
        start: Exclusive<u32>,
        size: Exclusive<u32>,
        group: Exclusive<u32>,
        ring_area: Exclusive<f64>,
        ring_edges: Exclusive<u32>,
        summary: Exclusive<u64>,
        mode: usize,
    ) -> u64;
}

/// The call of this name on a table and a state, with what comes after them; or with what comes before the outputs, `=>`, the outputs, and
/// what comes after. The library is proved to read and write within the lengths, for any contents.
macro_rules! call {
    ($call:ident, $table:expr, $memory:expr $(, $before:expr)* => $out:expr $(, $after:expr)*) => {{
        let out = $out;
        call!(
            $call,
            $table,
            $memory
            $(, $before)*,
            out.start.as_mut_slice().into(),
            out.size.as_mut_slice().into(),
            out.group.as_mut_slice().into(),
            out.area.as_mut_slice().into(),
            out.edges.as_mut_slice().into(),
            out.summary.as_mut_slice().into()
            $(, $after)*
        )
    }};
    ($call:ident, $table:expr, $memory:expr $(, $more:expr)*) => {{
        let (t, m) = ($table, $memory);
        // SAFETY: each pointer comes with the length of the slice that it is taken from; what is written is borrowed for it alone, so that
        // no two of the slices overlap.
        unsafe {
            $call(
                t.edges.as_slice().into(),
                t.reverse.as_slice().into(),
                t.area.as_slice().into(),
                m.head.as_mut_slice().into(),
                m.cells.as_mut_slice().into(),
                m.parent.as_mut_slice().into(),
                m.rank.as_mut_slice().into(),
                m.cell_mark.as_mut_slice().into(),
                m.slot_row.as_mut_slice().into(),
                m.slot_cell.as_mut_slice().into(),
                m.prev.as_mut_slice().into(),
                m.next.as_mut_slice().into(),
                m.row_slot.as_mut_slice().into(),
                m.row_mark.as_mut_slice().into()
                $(, $more)*
            )
        }
    }};
}
pub(crate) use call;
