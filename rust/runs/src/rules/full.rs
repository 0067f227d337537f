//! The four calls at full size, on slices of numbers: refusal 10 by their lengths, then calls.rs; what is written, and what stays.
use super::{Verdict, answer, calls, lists::Kept, memory::Memory, refuse, rings::ReadOut, table::Table};

const SLOTS: std::ops::RangeInclusive<usize> = 1..=65_536;
const PLACES: std::ops::RangeInclusive<usize> = 1..=16_384;

/// The lent outputs of read out and dissolve: a record for each ring, the rows of all rings, and the four numbers of the answer.
#[derive(Clone, Debug)]
pub struct Outputs {
    pub start: Vec<u32>,
    pub size: Vec<u32>,
    pub group: Vec<u32>,
    pub area: Vec<f64>,
    pub edges: Vec<u32>,
    /// Kind, polygons, rings, bits of the first outer area.
    pub summary: Vec<u64>,
}

impl Outputs {
    /// Room for so many rings and edges, filled with numbers that no answer has.
    pub fn new(rings: usize, edges: usize) -> Self {
        let words = |count: usize| vec![u32::MAX; count];
        Self {
            start: words(rings),
            size: words(rings),
            group: words(rings),
            area: vec![-1.; rings],
            edges: words(edges),
            summary: vec![u64::MAX; 4],
        }
    }

    fn agree(&self) -> bool {
        let rings = self.start.len();
        [self.size.len(), self.group.len(), self.area.len()].iter().all(|length| *length == rings)
            && self.summary.len() == 4
    }

    /// What a state shows. Too little room is refused, and nothing is written then.
    pub fn show(&mut self, read: &ReadOut) -> Verdict {
        let (kind, polygons) = match read {
            ReadOut::Nothing => (0, [].as_slice()),
            ReadOut::Closed => (1, [].as_slice()),
            ReadOut::Outline(polygons) => (2, polygons.as_slice()),
        };
        let rings = polygons.iter().flatten().collect::<Vec<_>>();
        let rows = rings.iter().flat_map(|ring| ring.rows.iter().map(|row| *row as u32)).collect::<Vec<_>>();
        if rings.len() > self.start.len() || rows.len() > self.edges.len() {
            return refuse(10, 0);
        }
        let mut start = 0;
        for (i, ring) in rings.iter().enumerate() {
            self.start[i] = start as u32;
            self.size[i] = ring.rows.len() as u32;
            self.group[i] = ring.group as u32;
            self.area[i] = ring.area;
            start += ring.rows.len();
        }
        self.edges[..rows.len()].copy_from_slice(&rows);
        let first = rings.first().map_or(0, |ring| ring.area_bits());
        self.summary = vec![kind, polygons.len() as u64, rings.len() as u64, first];
        Ok(())
    }

    /// Every number, the areas by their bits; every NaN counts as the same.
    pub fn numbers(&self) -> Vec<u64> {
        let words = [&self.start, &self.size, &self.group, &self.edges];
        let areas = self.area.iter().map(|area| if area.is_nan() { u64::MAX } else { area.to_bits() });
        words.into_iter().flatten().map(|word| u64::from(*word)).chain(areas).chain(self.summary.clone()).collect()
    }
}

pub fn open(table: &Table, memory: &mut Memory, mode: u64) -> u64 {
    answer((|| {
        lengths_fit(table, memory)?;
        calls::open(table, memory, kept(mode)?)
    })())
}

pub fn offer(table: &Table, memory: &mut Memory, cell: u64) -> u64 {
    answer(lengths_fit(table, memory).and_then(|()| calls::offer(table, memory, cell)))
}

pub fn read_out(table: &Table, memory: &Memory, out: &mut Outputs) -> u64 {
    answer((|| {
        outputs_agree(out)?;
        lengths_fit(table, memory)?;
        out.show(&calls::read_out(table, memory)?)
    })())
}

pub fn dissolve(table: &Table, memory: &mut Memory, cells: &[u64], out: &mut Outputs, mode: u64) -> u64 {
    answer((|| {
        outputs_agree(out)?;
        lengths_fit(table, memory)?;
        let kept = kept(mode)?;
        let read = calls::dissolve_in(table, memory, kept, cells)?;
        // Too short an output leaves the work memory newly opened.
        out.show(&read).inspect_err(|_| memory.open(kept as u32))
    })())
}

fn kept(mode: u64) -> Verdict<Kept> {
    Kept::of(mode).map_or(refuse(10, 0), Ok)
}

fn outputs_agree(out: &Outputs) -> Verdict {
    if out.agree() { Ok(()) } else { refuse(10, 0) }
}

fn lengths_fit(table: &Table, memory: &Memory) -> Verdict {
    let same = |lengths: &[usize], length: usize| lengths.iter().all(|other| *other == length);
    let m = memory;
    let rows = [table.reverse.len(), table.area.len(), m.row_slot.len(), m.row_mark.len()];
    let places = [m.parent.len(), m.rank.len(), m.cell_mark.len()];
    let slots = [m.slot_cell.len(), m.prev.len(), m.next.len()];
    let agree = same(&rows, table.rows()) && same(&places, m.places()) && same(&slots, m.slots());
    if agree && SLOTS.contains(&m.slots()) && PLACES.contains(&m.places()) { Ok(()) } else { refuse(10, 0) }
}
