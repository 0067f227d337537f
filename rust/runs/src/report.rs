//! What a section tells: a progress line, a line of counts, and at the first difference the smallest problem that shows it.
use crate::{
    problem::{AGAINST_THE_RUST, Counts, Problem, run},
    shrink::shrink,
};
use std::{
    io::{IsTerminal as _, Write as _, stderr},
    time::{Duration, Instant},
};

pub struct Report {
    section: &'static str,
    pub counts: Counts,
    problems: usize,
    started: Instant,
    shown: Instant,
}

impl Report {
    pub fn new(section: &'static str) -> Self {
        let now = Instant::now();
        Self { section, counts: Counts::default(), problems: 0, started: now, shown: now }
    }

    /// Puts a problem to the rules, the library and the oracle.
    pub fn check(&mut self, problem: &Problem) -> Result<(), String> {
        self.problem();
        run(problem, &mut self.counts).map_err(|difference| {
            eprintln!("{}: a difference; looking for the smallest", self.section);
            let (smallest, difference) = shrink(problem.clone(), difference);
            format!("{}: {difference}\n{smallest}", self.section)
        })
    }

    /// One more problem, shown twice a second where someone looks on and every ten seconds elsewhere.
    pub fn problem(&mut self) {
        self.problems += 1;
        let (pause, end) = if stderr().is_terminal() { (500, '\r') } else { (10_000, '\n') };
        if self.shown.elapsed() > Duration::from_millis(pause) {
            self.shown = Instant::now();
            eprint!("{}: {} problems, {} s{end}", self.section, self.problems, self.started.elapsed().as_secs());
            stderr().flush().ok();
        }
    }

    /// The line of counts. A section in which nothing was compared has told nothing.
    pub fn close(&self, asks_the_rust: bool) -> Result<(), String> {
        if self.problems == 0 || asks_the_rust && !self.counts.0.contains_key(AGAINST_THE_RUST) {
            return Err(format!("{}: nothing was compared ({})", self.section, self.counts));
        }
        let seconds = self.started.elapsed().as_secs_f64();
        println!("{}: {} problems, no difference, {seconds:.1} s ({})", self.section, self.problems, self.counts);
        Ok(())
    }
}
