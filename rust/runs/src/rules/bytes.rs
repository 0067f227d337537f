//! The two ways in on byte slices, in the host's formats: little-endian, at most 1,024 rows, 1,024 slots, 256 places and 256 cells.
use super::{Verdict, answer, calls, lists::Kept, memory::Memory, refuse, rings::ReadOut, table::Table};

pub const MOST_ROWS: usize = 1024;
pub const MOST_SLOTS: u32 = 1024;
pub const MOST_PLACES: u32 = 256;
pub const MOST_CELLS: usize = 256;

/// A row: edge, reverse row, the term's bits.
pub const ROW: usize = 20;
/// What comes before the rings: kind, polygons, rings, edges, first outer area.
pub const HEAD: usize = 24;

pub fn dissolve(table: &[u8], cells: &[u8], out: &mut [u8], mode: u32, slots: u32, places: u32) -> u64 {
    answer((|| {
        let table = decode_table(table)?;
        let cells = decode_cells(cells)?;
        let (slots, places) = capacities(slots, places)?;
        let kept = kept(mode.into())?;
        write(out, &calls::dissolve(&table, kept, &cells, slots, places)?)
    })())
}

pub fn standing(table: &[u8], state: &mut [u8], out: &mut [u8], slots: u32, places: u32, call: u32, value: u64) -> u64 {
    answer((|| {
        let table = decode_table(table)?;
        let (slots, places) = capacities(slots, places)?;
        let Some(mut memory) = Memory::decode(state, table.rows(), slots, places) else {
            return refuse(10, 0);
        };
        match call {
            0 => calls::open(&table, &mut memory, kept(value)?)?,
            1 => calls::offer(&table, &mut memory, value)?,
            2 => return write(out, &calls::read_out(&table, &memory)?),
            _ => return refuse(10, 0),
        }
        state.copy_from_slice(&memory.encode());
        Ok(())
    })())
}

fn capacities(slots: u32, places: u32) -> Verdict<(usize, usize)> {
    if (1..=MOST_SLOTS).contains(&slots) && (1..=MOST_PLACES).contains(&places) {
        Ok((slots as usize, places as usize))
    } else {
        refuse(10, 0)
    }
}

fn kept(mode: u64) -> Verdict<Kept> {
    Kept::of(mode).map_or(refuse(10, 0), Ok)
}

fn decode_table(bytes: &[u8]) -> Verdict<Table> {
    if !bytes.len().is_multiple_of(ROW) || bytes.len() / ROW > MOST_ROWS {
        return refuse(10, 0);
    }
    Ok(table_of(bytes))
}

/// The whole rows of these bytes.
pub fn table_of(bytes: &[u8]) -> Table {
    let rows = bytes.chunks_exact(ROW);
    Table {
        edges: rows.clone().map(|row| long(&row[..8])).collect(),
        reverse: rows.clone().map(|row| word(&row[8..12])).collect(),
        area: rows.map(|row| f64::from_bits(long(&row[12..]))).collect(),
    }
}

pub fn table_bytes(table: &Table) -> Vec<u8> {
    let mut bytes = Vec::with_capacity(ROW * table.rows());
    for row in 0..table.rows() {
        bytes.extend(table.edges[row].to_le_bytes());
        bytes.extend(table.reverse[row].to_le_bytes());
        bytes.extend(table.area[row].to_bits().to_le_bytes());
    }
    bytes
}

fn decode_cells(bytes: &[u8]) -> Verdict<Vec<u64>> {
    if !bytes.len().is_multiple_of(8) || bytes.len() / 8 > MOST_CELLS {
        return refuse(10, 0);
    }
    Ok(cells_of(bytes))
}

pub fn cells_of(bytes: &[u8]) -> Vec<u64> {
    bytes.chunks_exact(8).map(long).collect()
}

pub fn cell_bytes(cells: &[u64]) -> Vec<u8> {
    cells.iter().flat_map(|cell| cell.to_le_bytes()).collect()
}

/// Too short an output is refused and stays as it was; what lies past the written part stays as it was.
fn write(out: &mut [u8], read: &ReadOut) -> Verdict {
    let bytes = encode(read);
    match out.get_mut(..bytes.len()) {
        Some(start) => start.copy_from_slice(&bytes),
        None => return refuse(10, 0),
    }
    Ok(())
}

pub fn encode(read: &ReadOut) -> Vec<u8> {
    let ReadOut::Outline(polygons) = read else {
        let mut bytes = vec![0; HEAD];
        bytes[0] = u8::from(matches!(read, ReadOut::Closed));
        return bytes;
    };
    let rings = polygons.iter().flatten().collect::<Vec<_>>();
    let edges = rings.iter().map(|ring| ring.rows.len()).sum::<usize>();
    let mut bytes = Vec::new();
    for number in [2, polygons.len(), rings.len(), edges] {
        put(&mut bytes, number);
    }
    bytes.extend(rings[0].area_bits().to_le_bytes());
    let mut start = 0;
    for ring in &rings {
        put(&mut bytes, start);
        put(&mut bytes, ring.rows.len());
        put(&mut bytes, ring.group);
        bytes.extend(ring.area_bits().to_le_bytes());
        start += ring.rows.len();
    }
    rings.iter().flat_map(|ring| &ring.rows).for_each(|row| put(&mut bytes, *row));
    bytes
}

fn put(bytes: &mut Vec<u8>, number: usize) {
    bytes.extend((number as u32).to_le_bytes());
}

fn word(bytes: &[u8]) -> u32 {
    u32::from_le_bytes(bytes.try_into().expect("four bytes"))
}

fn long(bytes: &[u8]) -> u64 {
    u64::from_le_bytes(bytes.try_into().expect("eight bytes"))
}
