//! The runs: the library under test against document 01's rules (`rules`) and against the Rust (`oracle`).
#![deny(unsafe_code)]

mod bench;
#[allow(unsafe_code)]
mod clock;
mod full_size;
mod list;
mod oracle_answer;
mod problem;
mod random;
mod report;
mod rules;
#[cfg(h3o)]
mod said;
mod sections;
mod shrink;
#[allow(unsafe_code)]
mod subject;
mod tables;

use random::Random;
use report::Report;
use sections::{ASK_THE_RUST, Context, SECTIONS};
use std::{env, path::PathBuf, process::ExitCode};
use tables::real::Folder;

const HELP: &str = "\
runs [--seed N] [--rounds N] [--tables FOLDER] [SECTION...]
    Compares the library with document 01's rules and with the Rust, and ends with status 1 at the first difference, with the smallest
    input that shows it. The fixed list of the Rust's answers is replayed first. Without a section, all of them run:
      walk      outlines, alone and through dissolve
      short     every list of up to four cells on two small tables
      dissolve  random lists on real and hand-made tables, in every mode
      standing  a state after every offer, with replays and refusals in between
      order     the same cells in another order
      boundary  capacities, slots, output lengths and byte lengths around their bounds
      damage    damaged tables, states and lists, and states that calls alone would not make
      odd       tables that make no surface; and what the Rust does there
      pool      the Rust's private slots and parents beside the rules'
      full      the calls at full size, on larger tables
    --seed N    another start of the random numbers (1)
    --rounds N  as many random problems in each section (else some twenty seconds' worth in all)
    --tables F  the folder of the real tables (shared/tables beside the repository, or the environment's ZONE_TABLES)
runs odd-search looks through every table of one cell and of two for the smallest on which the Rust's answer is not the defined one
runs full-size FOLDER
                writes the files of tests/full_size.sh
runs said TOOL TABLE LIST
                what a tool (outline, outline-mixed, till_import, year_audit) has to say of a list, by the rules and the Rust
runs list       writes the fixed list of the oracle's answers to standard output
runs bench      times the calls beside the Rust's; `runs bench checks` open and offer alone
runs --help     this
";

struct Arguments {
    seed: u64,
    rounds: Option<usize>,
    folder: Folder,
    words: Vec<String>,
}

fn arguments() -> Result<Arguments, String> {
    let default = concat!(env!("CARGO_MANIFEST_DIR"), "/../../../shared/tables");
    let folder = env::var("ZONE_TABLES").unwrap_or_else(|_| default.into());
    let mut found = Arguments { seed: 1, rounds: None, folder: Folder(folder.into()), words: Vec::new() };
    let mut arguments = env::args().skip(1);
    while let Some(argument) = arguments.next() {
        let mut value = || arguments.next().ok_or_else(|| format!("{argument} needs a value"));
        let number = |text: String| text.parse().map_err(|_| format!("{text} is not a number"));
        match argument.as_str() {
            "--seed" => found.seed = number(value()?)?,
            "--rounds" => found.rounds = Some(number(value()?)? as usize),
            "--tables" => found.folder = Folder(PathBuf::from(value()?)),
            "--help" | "-h" => found.words = vec!["--help".into()],
            _ if argument.starts_with('-') => return Err(format!("no option {argument}; see --help")),
            _ => found.words.push(argument),
        }
    }
    Ok(found)
}

fn run(arguments: &Arguments) -> Result<(), String> {
    let words = arguments.words.iter().map(String::as_str).collect::<Vec<_>>();
    match words.as_slice() {
        ["--help"] => {
            print!("{HELP}");
            Ok(())
        }
        ["odd-search"] => sections::odd::search(),
        ["full-size", to] => full_size::write(&arguments.folder, to),
        ["said", tool, table, list] => said(tool, table, list),
        ["list"] => list::write(&arguments.folder),
        ["bench"] => bench::run(&arguments.folder, false),
        ["bench", "checks"] => bench::run(&arguments.folder, true),
        ["rust-on", name] => sections::odd::answer_of_the_rust(name),
        names => compare(arguments, names),
    }
}

#[cfg(h3o)]
fn said(tool: &str, table: &str, list: &str) -> Result<(), String> {
    said::run(tool, table, list)
}

#[cfg(not(h3o))]
fn said(_: &str, _: &str, _: &str) -> Result<(), String> {
    Err("the Rust's texts were not there when this was built".into())
}

fn compare(arguments: &Arguments, names: &[&str]) -> Result<(), String> {
    if let Some(name) = names.iter().find(|name| SECTIONS.iter().all(|(section, _)| section != *name)) {
        return Err(format!("no section {name}; see --help"));
    }
    let all_is_there = all_is_there(&arguments.folder)?;
    println!("list: {} answers of the fixed list, no difference", list::replay()?);
    if !all_is_there {
        return Ok(());
    }
    for (number, (name, section)) in SECTIONS.iter().enumerate() {
        if !names.is_empty() && !names.contains(name) {
            continue;
        }
        let random = Random::new(arguments.seed.wrapping_mul(1000).wrapping_add(number as u64));
        let mut context = Context { random, rounds: arguments.rounds, folder: &arguments.folder };
        let mut report = Report::new(name);
        section(&mut context, &mut report)?;
        report.close(oracle::AVAILABLE && ASK_THE_RUST.contains(name))?;
    }
    Ok(())
}

/// Says in a line what is missing, which is an error where CI is set. Without the tables only the fixed list is replayed.
fn all_is_there(tables: &Folder) -> Result<bool, String> {
    let library = "the library was left out, since target/staticlib/libhost.a was not there when this was built";
    let texts = "the Rust was left out, since its texts were not there when this was built";
    let folder = format!("all but the fixed list was left out: no real tables in {}", tables.0.display());
    let parts = [(subject::AVAILABLE, library), (oracle::AVAILABLE, texts), (tables.is_there(), folder.as_str())];
    for (_, missing) in parts.iter().filter(|(there, _)| !there) {
        if env::var_os("CI").is_some() {
            return Err((*missing).into());
        }
        println!("{missing}");
    }
    Ok(tables.is_there())
}

fn main() -> ExitCode {
    match arguments().and_then(|arguments| run(&arguments)) {
        Ok(()) => ExitCode::SUCCESS,
        Err(message) => {
            eprintln!("{message}");
            ExitCode::FAILURE
        }
    }
}
