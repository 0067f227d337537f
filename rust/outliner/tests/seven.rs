//! The worked examples T7 to T9 on their real table: the hexagon 8928308280fffff of resolution 9, its six neighbours, and the reverses of
//! their edges.
use outliner::{Dissolution, EdgeTable, Outline, Refusal, SolventBuilder};

const CENTRE: u64 = 0x8928308280fffff;
const AROUND: [u64; 6] =
    [0x89283082877ffff, 0x8928308283bffff, 0x89283082807ffff, 0x89283082803ffff, 0x8928308280bffff, 0x89283082873ffff];

fn seven() -> EdgeTable {
    let rows = include_str!("data/seven_r9.csv").lines().skip(1).map(|line| {
        let mut fields = line.split(',');
        let mut field = || fields.next().expect("a row has five fields");
        let edge = u64::from_str_radix(field(), 16).expect("an edge number");
        let reverse: u32 = field().parse().expect("a row number");
        (edge, reverse, f64::from_bits(u64::from_str_radix(field(), 16).expect("the bits of an area term")))
    });
    let (edges, (reverse, area)) = rows.map(|(edge, reverse, area)| (edge, (reverse, area))).unzip();
    EdgeTable::new(edges, reverse, area)
}

/// For each polygon the lengths of its rings, the outer's first, and their area bits.
fn shape(outline: &Outline) -> Vec<Vec<(usize, u64)>> {
    let ring = |ring: &outliner::Ring| (ring.rows().len(), ring.area().to_bits());
    let polygon = |p: &outliner::Polygon| std::iter::once(p.exterior()).chain(p.interiors()).map(ring).collect();
    outline.polygons().iter().map(polygon).collect()
}

fn outlined(dissolution: Result<Dissolution, Refusal>) -> Outline {
    match dissolution {
        Ok(Dissolution::Outlined(outline)) => outline,
        other => panic!("no outline but {other:?}"),
    }
}

#[test]
fn two_hexagons_have_one_ring_of_ten() {
    let table = seven();
    let outline = outlined(SolventBuilder::new().build(&table).dissolve(AROUND[..2].iter().copied()));
    assert_eq!(shape(&outline), [[(10, 0x3e3726950b290000)]]);
    assert_eq!(outline.polygons()[0].exterior().rows(), [5, 44, 35, 57, 39, 59, 18, 29, 9, 27]);
    assert_eq!(outline.polygons()[0].exterior().group(), 0);
}

#[test]
fn six_around_an_absent_one_have_a_hole() {
    let table = seven();
    let outline = outlined(SolventBuilder::new().build(&table).dissolve(AROUND));
    assert_eq!(shape(&outline), [[(18, 0x3e5441fddeef6000), (6, 0x402921fb542d063f)]]);
}

#[test]
fn offered_around_the_sixth_needs_28_slots() {
    let table = seven();
    for (slots, last) in [(28, Ok(())), (27, Err(Refusal::PoolFull { index: 5 }))] {
        let mut zone = SolventBuilder::new().slots(slots).build(&table).open().expect("the table is good");
        for cell in &AROUND[..5] {
            assert_eq!(zone.offer(*cell), Ok(()));
        }
        assert_eq!(zone.offer(AROUND[5]), last);
        assert_eq!(zone.cells().len(), if last.is_ok() { 6 } else { 5 });
    }
}

#[test]
fn then_the_centre_closes_the_hole_and_needs_30_slots() {
    let table = seven();
    let all = AROUND.iter().copied().chain([CENTRE]);
    let solvent = |slots| SolventBuilder::new().slots(slots).build(&table);
    assert_eq!(shape(&outlined(solvent(30).dissolve(all.clone()))), [[(18, 0x3e5441fddeef6000)]]);
    assert_eq!(solvent(29).dissolve(all), Err(Refusal::PoolFull { index: 6 }));
}

#[test]
fn a_zone_shows_what_dissolve_makes_of_its_cells() {
    let table = seven();
    for solvent in
        [SolventBuilder::new(), SolventBuilder::new().enable_heterogeneous_support()].map(|b| b.build(&table))
    {
        let mut zone = solvent.open().expect("the table is good");
        for (held, cell) in AROUND.iter().chain([&CENTRE]).enumerate() {
            assert_eq!(zone.offer(*cell), Ok(()));
            // The replay of an accepted cell is refused and changes nothing.
            assert_eq!(zone.offer(*cell), Err(Refusal::DuplicateInput { index: held + 1 }));
            assert_eq!(zone.read_out(), solvent.dissolve(zone.cells().iter().copied()));
        }
    }
}

#[test]
fn a_zone_stands_over_a_restart() {
    let table = seven();
    let solvent = SolventBuilder::new().capacity(7).build(&table);
    let mut zone = solvent.open().expect("the table is good");
    for cell in &AROUND[..5] {
        assert_eq!(zone.offer(*cell), Ok(()));
    }
    let kept = zone.to_bytes();
    assert_eq!(kept.len(), 8 + 20 * 7 + 16 * table.rows() + 8 * table.rows());
    let mut again = solvent.reopen(&kept).expect("the bytes are whole");
    assert_eq!(again.cells(), zone.cells());
    // Replays are refused as before, new cells accepted, and both zones show the same.
    for cell in AROUND {
        assert_eq!(again.offer(cell), zone.offer(cell));
        assert_eq!(again.read_out(), zone.read_out());
    }
    assert_eq!(again.to_bytes(), zone.to_bytes());

    let (mut marked, mut longer) = (kept.clone(), kept.clone());
    marked[kept.len() - 1] = 1;
    longer.push(0);
    assert_eq!(solvent.reopen(&marked).err(), Some(Refusal::BrokenState));
    for bytes in [&kept[1..], &longer, &[]] {
        assert_eq!(solvent.reopen(bytes).err(), Some(Refusal::BadLengths));
    }
}

#[test]
fn refusals_name_what_is_wrong() {
    let table = seven();
    let solvent = SolventBuilder::new().capacity(3).build(&table);
    let cases: [(&[u64], Refusal); 6] = [
        (&[AROUND[0], 7], Refusal::InvalidCell { index: 1 }),
        (&[AROUND[0], AROUND[1], AROUND[0]], Refusal::DuplicateInput { index: 2 }),
        (&[CENTRE ^ 1, 7], Refusal::InvalidCell { index: 0 }),
        (&[0x872830828ffffff], Refusal::UnsupportedResolution { index: 0 }),
        (&AROUND[..4], Refusal::TooManyCells),
        (&[0x8928308281bffff], Refusal::EdgeNotInTable { index: 0 }),
    ];
    for (cells, refusal) in cases {
        assert_eq!(solvent.dissolve(cells.iter().copied()), Err(refusal));
    }
    let builder = SolventBuilder::new();
    for out_of_range in [builder.slots(0), builder.slots(usize::MAX), builder.capacity(0), builder.capacity(16_385)] {
        assert_eq!(out_of_range.build(&table).open().err(), Some(Refusal::BadLengths));
        assert_eq!(out_of_range.build(&table).dissolve([]), Err(Refusal::BadLengths));
    }
}

#[test]
fn a_bad_table_is_refused_by_its_lowest_bad_row() {
    let good = seven();
    let (edges, reverse) = (good.edges().to_vec(), good.reverse().to_vec());
    let mut area = good.area().to_vec();
    area[41] = f64::NAN;
    area[7] = f64::INFINITY;
    let table = EdgeTable::new(edges, reverse, area);
    let refused = SolventBuilder::new().build(&table).dissolve([CENTRE]);
    assert_eq!(refused, Err(Refusal::BadTable { row: 7 }));
    let short = EdgeTable::new(good.edges().to_vec(), Vec::new(), good.area().to_vec());
    assert_eq!(SolventBuilder::new().build(&short).dissolve([CENTRE]), Err(Refusal::BadLengths));
}

#[test]
fn a_table_with_too_few_rows_or_too_many_is_refused_for_them() {
    for rows in [0, 1, 65_537] {
        let table = EdgeTable::new(vec![0; rows], vec![0; rows], vec![0.; rows]);
        let solvent = SolventBuilder::new().build(&table);
        assert_eq!(solvent.dissolve([]), Err(Refusal::BadTable { row: 0 }));
        assert_eq!(solvent.open().err(), Some(Refusal::BadTable { row: 0 }));
    }
}

#[test]
fn a_refusal_has_its_number_its_index_and_advice() {
    let index = 5;
    let indexed = [
        Refusal::BadTable { row: index },
        Refusal::InvalidCell { index },
        Refusal::DuplicateInput { index },
        Refusal::UnsupportedResolution { index },
        Refusal::EdgeNotInTable { index },
        Refusal::EdgeTwice { index },
        Refusal::PoolFull { index },
    ];
    for (refusal, number) in indexed.into_iter().zip(1..) {
        assert_eq!((refusal.number(), refusal.index()), (number, Some(index)));
        let words = refusal.to_string();
        let (what, advice) = words.split_once(": ").expect("what is wrong, then what to do");
        assert!(what.contains('5') && !advice.is_empty(), "{words}");
    }
    for (refusal, number) in [Refusal::TooManyCells, Refusal::BrokenState, Refusal::BadLengths].into_iter().zip(8..) {
        assert_eq!((refusal.number(), refusal.index()), (number, None));
        assert!(refusal.to_string().contains(": "), "{refusal}");
    }
    assert_eq!(
        Refusal::PoolFull { index }.to_string(),
        "no room for the outline of cell 5: open the zone with more slots"
    );
}
