//! Writes what crates/walk_examples must write, by the Rust's own walk:
//! `cargo run --release --offline -p oracle --example walks > ../crates/walk_examples/stdout`

const OUTLINES: [(u64, u8); 35] = [
    (0x08001fffffffffff, 0),
    (0x08009fffffffffff, 0),
    (0x08001fffffffffff, 1),
    (0x08009fffffffffff, 1),
    (0x08001fffffffffff, 2),
    (0x081003ffffffffff, 0),
    (0x0821fb7fffffffff, 9),
    (0x08001fffffffffff, 8),
    (0x08001fffffffffff, 10),
    (0x08009fffffffffff, 2),
    (0x08009fffffffffff, 3),
    (0x08009fffffffffff, 4),
    (0x08009fffffffffff, 5),
    (0x08009fffffffffff, 6),
    (0x08009fffffffffff, 7),
    (0x08009fffffffffff, 8),
    (0x0811c3ffffffffff, 4),
    (0x0823007fffffffff, 5),
    (0x0834c00fffffffff, 3),
    (0x084ea001ffffffff, 9),
    (0x08ed600000000007, 15),
    (0x08fc200000000000, 15),
    (0x0820817fffffffff, 5),
    (0x08108fffffffffff, 4),
    (0x080f3fffffffffff, 3),
    (0x08129bffffffffff, 6),
    (0x08329acfffffffff, 7),
    (0x0869253977ffffff, 9),
    (0x084c8085ffffffff, 11),
    (0x0817f7ffffffffff, 8),
    (0x08902924924bffff, 12),
    (0x08c6f041041041ff, 15),
    (0x08f1249249249249, 15),
    (0x08342f1fffffffff, 3),
    (0x0827897fffffffff, 9),
];

#[cfg(h3o)]
fn main() {
    use oracle::{CellIndex, Resolution};
    for (cell, target) in OUTLINES {
        let resolution = Resolution::new(target).expect("a target is at most 15");
        let edges = CellIndex(cell).outline(resolution).map(|edge| edge.0).collect::<Vec<_>>();
        let digest = edges.iter().fold(0, |sum, edge| (sum * 31 + edge % 1_000_000_007) % 1_000_000_007);
        let first = edges.iter().take(6).map(|edge| format!(" {edge:016x}")).collect::<String>();
        println!("{cell:016x} {target}: {} edges, digest {digest}{first}", edges.len());
    }
}

#[cfg(not(h3o))]
fn main() {
    eprintln!("the texts of h3o 0.11.1 were not there when this was built; {} outlines are left", OUTLINES.len());
}
