//! Document 01's worked examples of the walk and the adder, of the rules themselves. T7 to T9 run in section `boundary`.
use super::{
    cells::{digit, edge_number},
    rings::area,
    table::Table,
    walk::outline,
};

const HEXAGON: u64 = 0x0800_1fff_ffff_ffff;
const PENTAGON: u64 = 0x0800_9fff_ffff_ffff;
const ONE_LEVEL_DOWN: &str = "1/3 1/1 1/5 5/1 5/5 5/4 4/5 4/4 4/6 6/4 6/6 6/2 2/6 2/2 2/3 3/2 3/3 3/1";

/// An outline as digits and edge numbers.
fn spelled(cell: u64, target: u32) -> String {
    let digits = |edge: u64| (1..=target).map(|r| digit(edge, r).to_string()).collect::<String>();
    let words = outline(cell, target).into_iter().map(|edge| format!("{}/{}", digits(edge), edge_number(edge)));
    words.collect::<Vec<_>>().join(" ")
}

#[test]
fn t1_and_t2_own_edges() {
    let numbers = |cell| outline(cell, 0).into_iter().map(edge_number).collect::<Vec<_>>();
    assert_eq!(numbers(HEXAGON), [3, 1, 5, 4, 6, 2]);
    assert_eq!(outline(HEXAGON, 0)[0], 0x1300_1fff_ffff_ffff);
    assert_eq!(numbers(PENTAGON), [3, 5, 4, 6, 2]);
}

#[test]
fn t3_and_t4_one_level_down() {
    assert_eq!(spelled(HEXAGON, 1), ONE_LEVEL_DOWN);
    assert_eq!(outline(HEXAGON, 1)[0], 0x1310_07ff_ffff_ffff);
    assert_eq!(spelled(PENTAGON, 1), ONE_LEVEL_DOWN["1/3 1/1 1/5 ".len()..]);
}

#[test]
fn t5_two_levels_down() {
    assert!(spelled(HEXAGON, 2).starts_with("13/3 13/1 11/3 11/1 11/5 15/1 "));
}

#[test]
fn t6_a_coarser_target() {
    assert!(outline(0x0810_07ff_ffff_ffff, 0).is_empty());
}

#[test]
fn delta_seven() {
    assert_eq!(outline(HEXAGON, 7).len(), 13_122);
    assert_eq!(outline(PENTAGON, 7).len(), 10_935);
}

#[test]
fn t10_the_adder() {
    let table = Table { edges: Vec::new(), reverse: Vec::new(), area: vec![1., 2_f64.powi(-53)] };
    assert_eq!(area(&table, &[0, 1]), 1. - 2_f64.powi(-53));
}
