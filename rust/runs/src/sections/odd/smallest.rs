//! The smallest tables on which the Rust's answer is not the defined one, as `search` finds them, and the Rust asked on each in a process of
//! its own, since some never end.
use super::{Report, dissolve_call};
use crate::{
    problem::Problem,
    rules::{afresh, rings::ReadOut, table::Table},
    tables::odd::{cell_of, named},
};
use std::collections::BTreeSet;

/// A table and a list on which the Rust's answer is not the defined one.
#[derive(PartialEq)]
#[cfg_attr(not(h3o), allow(dead_code))]
pub struct Oddity<'a> {
    pub name: &'a str,
    /// Pairs of edges, by cell and number.
    pub pairs: &'a str,
    pub cells: &'a str,
    /// The defined answer and the Rust's: rings by their rows.
    pub defined: &'a str,
    pub rust: &'a str,
}

/// What is said of the Rust where it does not end.
pub const NO_END: &str = "no end";

pub const ODDITIES: [Oddity; 6] = [
    Oddity { name: "ring-of-one", pairs: "P2-P3 P4-P5 P6-X1", cells: "P", defined: "[[5]]", rust: "closed" },
    Oddity { name: "ring-of-two", pairs: "A1-A2 A3-A4 A5-X1 A6-X2", cells: "A", defined: "[[6, 7]]", rust: "closed" },
    Oddity {
        name: "ring-left-out",
        pairs: "A1-A2 A3-A5 A4-P2 A6-X1 P3-P5 P4-X2 P6-X3",
        cells: "AP",
        defined: "[[9, 13, 12]]",
        rust: "closed",
    },
    Oddity {
        name: "invented-rings",
        pairs: "P2-P3 P4-Q2 P5-Q4 P6-Q5 Q3-Q6",
        cells: "PQ",
        defined: "closed",
        rust: "[[4, 8, 6]]",
    },
    Oddity { name: "self-stitch", pairs: "A1-A2 A3-A5 A4-X1 A6-X2", cells: "A", defined: "[[5, 7]]", rust: NO_END },
    Oddity {
        name: "no-end",
        pairs: "A1-A2 A3-A4 A5-B1 A6-B3 B2-B4 B5-B6",
        cells: "AB",
        defined: "closed",
        rust: NO_END,
    },
];

pub fn run(report: &mut Report) -> Result<(), String> {
    for oddity in &ODDITIES {
        report.check(&oddity.problem())?;
        report.problem();
        let defined = words(&defined(&named(oddity.pairs), &oddity.cells())?);
        if defined != oddity.defined {
            return Err(format!("odd: {}: defined is {defined}", oddity.name));
        }
        oddity.ask_the_rust(report)?;
    }
    Ok(())
}

/// Each from its lowest row on.
pub type Rings = BTreeSet<Vec<usize>>;

pub fn defined(table: &Table, cells: &[u64]) -> Result<Rings, String> {
    match afresh::dissolve(table, cells).ok_or("a taken cell is not in the table")? {
        ReadOut::Outline(polygons) => Ok(polygons.into_iter().flatten().map(|ring| ring.rows).collect()),
        _ => Ok(Rings::new()),
    }
}

pub fn words(rings: &Rings) -> String {
    if rings.is_empty() { "closed".into() } else { format!("{:?}", rings.iter().collect::<Vec<_>>()) }
}

impl Oddity<'_> {
    fn cells(&self) -> Vec<u64> {
        self.cells.chars().map(cell_of).collect()
    }

    fn problem(&self) -> Problem {
        let mut problem = Problem::new(&named(self.pairs), 64, 4, false);
        problem.calls.push(dissolve_call(&problem, 0, &self.cells()));
        problem.calls.push(dissolve_call(&problem, 1, &self.cells()));
        problem
    }
}

#[cfg(h3o)]
mod asked {
    use super::{NO_END, ODDITIES, Oddity, Report, Rings, named, words};
    use crate::{
        oracle_answer::lent,
        rules::{lists::Kept, table::Table},
    };
    use oracle::dissolve::Answer;
    use std::{
        env,
        io::Read as _,
        process::{Command, Stdio},
        thread::sleep,
        time::{Duration, Instant},
    };

    const LIMIT: Duration = Duration::from_secs(2);

    /// What the Rust answers, if it ends: in mixed mode by its own walk, in even mode by the one that stands in for `cell.edges()`.
    pub fn answered(table: &Table, cells: &[u64]) -> Result<Rings, String> {
        let lent = lent(table).ok_or("an odd table breaks a rule")?;
        let [even, mixed] = [Kept::Even, Kept::Mixed].map(|kept| rings(lent.ask(kept, table.target(), cells)));
        if even == mixed {
            mixed
        } else {
            Err(format!("the Rust answers {even:?} in even mode, {mixed:?} in mixed mode"))
        }
    }

    fn rings(answer: Answer) -> Result<Rings, String> {
        match answer {
            Answer::Closed => Ok(Rings::new()),
            Answer::Outline(polygons) => {
                let rows = |rows: Vec<u32>| rows.into_iter().map(|row| row as usize).collect();
                Ok(polygons.into_iter().flatten().map(|ring| rows(ring.rows)).collect())
            }
            other => Err(format!("the Rust answers {other:?}")),
        }
    }

    impl Oddity<'_> {
        pub fn ask_the_rust(&self, report: &mut Report) -> Result<(), String> {
            let rust = self.within_the_limit().map_err(|error| error.to_string())?;
            if rust != self.rust {
                return Err(format!("odd: {}: the Rust answers {rust}", self.name));
            }
            report.counts.add("of the Rust's oddities");
            Ok(())
        }

        /// The Rust's answer, from a process of its own.
        fn within_the_limit(&self) -> std::io::Result<String> {
            let mut asked =
                Command::new(env::current_exe()?).args(["rust-on", self.name]).stdout(Stdio::piped()).spawn()?;
            let started = Instant::now();
            while asked.try_wait()?.is_none() {
                if started.elapsed() > LIMIT {
                    asked.kill()?;
                    asked.wait()?;
                    return Ok(NO_END.into());
                }
                sleep(Duration::from_millis(5));
            }
            let mut answer = String::new();
            if let Some(mut out) = asked.stdout {
                out.read_to_string(&mut answer)?;
            }
            Ok(answer.trim().into())
        }
    }

    /// What the process of its own writes.
    pub fn answer_of_the_rust(name: &str) -> Result<(), String> {
        let oddity = ODDITIES.iter().find(|oddity| oddity.name == name).ok_or("no such table")?;
        println!("{}", words(&answered(&named(oddity.pairs), &oddity.cells())?));
        Ok(())
    }
}

#[cfg(h3o)]
pub use asked::{answer_of_the_rust, answered};

#[cfg(not(h3o))]
impl Oddity<'_> {
    fn ask_the_rust(&self, report: &mut Report) -> Result<(), String> {
        report.counts.add("left out: the Rust's oddities");
        Ok(())
    }
}

#[cfg(not(h3o))]
pub fn answer_of_the_rust(_: &str) -> Result<(), String> {
    Err("the Rust's texts were not there when this was built".into())
}
