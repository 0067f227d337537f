//! The Rust's private pool beside ours: slots that it never frees again, and parents that it leaves otherwise, since it skips a ring's last
//! pair. The groups are the same.
use super::{Context, Report};

#[cfg(not(h3o))]
pub fn run(_: &mut Context, report: &mut Report) -> Result<(), String> {
    report.counts.add("left out: no texts");
    Ok(())
}

#[cfg(h3o)]
pub fn run(context: &mut Context, report: &mut Report) -> Result<(), String> {
    beside::smallest(context, report)?;
    beside::random_lists(context, report)
}

#[cfg(h3o)]
mod beside {
    use super::{Context, Report};
    use crate::{
        rules::{afresh, lists::Kept, memory::Memory, pool, table::Table},
        sections::good_list,
        tables::Given,
    };

    /// The first lists, of the fewest cells, that lose slots and that leave other parents.
    const LOSES_SLOTS: [u64; 4] = [0x089283082803ffff, 0x08928308280fffff, 0x08928308283bffff, 0x089283082807ffff];
    const OTHER_PARENTS: [u64; 5] =
        [0x08928308283bffff, 0x089283082873ffff, 0x08928308280bffff, 0x089283082877ffff, 0x08928308280fffff];

    /// The two pools after the same list.
    struct Pools {
        ours: Memory,
        rust: probe::Pool,
        standing: usize,
    }

    impl Pools {
        fn after(table: &Table, list: &[u64]) -> Option<Self> {
            let mut ours = Memory::opened(Kept::Mixed as u32, table.rows(), table.rows(), list.len());
            for cell in list {
                let rows = table.outline(*cell).into_iter().collect::<Option<Vec<_>>>()?;
                pool::take(table, &mut ours, *cell, &rows);
            }
            let lent = oracle::table::Table::new(table.edges.clone(), table.reverse.clone(), table.area.clone())?;
            let rust = probe::pool(&lent, list, table.target())?;
            let standing = afresh::standing(table, list)?.len();
            Some(Self { ours, rust, standing })
        }

        /// Slots of the Rust's that hold no standing edge and are not free.
        fn lost(&self) -> usize {
            self.rust.slots - self.rust.free - self.standing
        }

        /// Our slots add up, the Rust loses them by pairs, groups and ranks are the same, and so are the parents where no pair was skipped.
        fn check(&self, name: &str, list: &[u64]) -> Result<(), String> {
            let fits = self.ours.free_slots().count() + self.standing == self.ours.slots();
            let same_parents = self.lost() > 0 || self.our_parents() == self.rust.parents;
            if fits && self.lost().is_multiple_of(2) && self.same_groups() && self.same_ranks() && same_parents {
                return Ok(());
            }
            Err(format!("pool: slots, groups, ranks or parents do not fit: {name}, {list:016x?}"))
        }

        fn same_ranks(&self) -> bool {
            self.ours.rank.iter().map(|rank| *rank as usize).eq(self.rust.ranks.iter().copied())
        }

        fn our_parents(&self) -> Vec<usize> {
            self.ours.parent.iter().map(|parent| *parent as usize).collect()
        }

        /// The parents of both join the same places.
        fn same_groups(&self) -> bool {
            let root = |place: usize| {
                let mut at = place;
                while self.rust.parents[at] != at {
                    at = self.rust.parents[at];
                }
                at
            };
            let joined = |a, b| (self.ours.root(a) == self.ours.root(b)) == (root(a) == root(b));
            (0..self.ours.places()).all(|a| (0..a).all(|b| joined(a, b)))
        }
    }

    /// Every list of up to five of the seven hexagons of a real table, shortest first.
    pub fn smallest(context: &mut Context, report: &mut Report) -> Result<(), String> {
        let seven = Given::new("seven_r9", context.folder.read("seven_r9")?);
        let (mut losing, mut other) = (Vec::new(), Vec::new());
        for list in every_order(&seven.cells, OTHER_PARENTS.len()) {
            report.problem();
            let pools = Pools::after(&seven.table, &list).ok_or("the seven hexagons are in their table")?;
            pools.check(&seven.name, &list)?;
            if losing.is_empty() && pools.lost() > 0 {
                losing = list.clone();
            }
            if other.is_empty() && pools.our_parents() != pools.rust.parents {
                other = list;
            }
        }
        if losing == LOSES_SLOTS && other == OTHER_PARENTS {
            return Ok(());
        }
        Err(format!(
            "pool: the first lists that lose slots and that leave other parents: {losing:016x?}, {other:016x?}"
        ))
    }

    /// All lists of up to `most` of the cells, each at most once, in every order.
    fn every_order(cells: &[u64], most: usize) -> Vec<Vec<u64>> {
        let mut lists = vec![Vec::new()];
        let mut longest = lists.clone();
        for _ in 0..most {
            let longer = longest.iter().flat_map(|list: &Vec<u64>| {
                let rest = cells.iter().filter(|cell| !list.contains(cell));
                rest.map(|cell| [list.as_slice(), &[*cell]].concat())
            });
            longest = longer.collect();
            lists.extend(longest.iter().cloned());
        }
        lists
    }

    pub fn random_lists(context: &mut Context, report: &mut Report) -> Result<(), String> {
        let tables = context.regular_tables()?;
        for round in 0..context.rounds(2000) {
            report.problem();
            let given = &tables[round % tables.len()];
            let list = good_list(given, true, 60, &mut context.random);
            let pools = Pools::after(&given.table, &list).ok_or("a good list is in its table")?;
            pools.check(&given.name, &list)?;
            report.counts.add(if pools.lost() == 0 { "no slot lost" } else { "slots lost in the Rust" });
            report.counts.add(if pools.our_parents() == pools.rust.parents { "same parents" } else { "other parents" });
        }
        Ok(())
    }
}
