//! `mutants`: applies each change of mutants/table.txt to a copy of the second
//! program, builds it and lets `compare` look for the difference, in the gate's
//! run. A change that is not noticed is a gap in what the gate compares.

mod table;
mod workshop;

use std::path::Path;
use std::time::Instant;
use table::Change;
use workshop::Workshop;

const USAGE: &str = "\
usage: mutants [--only START] [--seed N] [--count K]
START is how the names of those to try begin. Seed and count go to compare; the
gate's stand if they aren't given. Run it in the repository's folder or in the
package's, after cargo build --release.
exit: 0 all noticed, 1 some not, 3 other trouble";

/// Enough items to see that the unchanged copy is a true one.
const UNCHANGED: [&str; 2] = ["--count", "2000"];

fn main() {
    match run() {
        Ok(true) => {}
        Ok(false) => std::process::exit(1),
        Err(message) => {
            eprintln!("{message}");
            std::process::exit(3);
        }
    }
}

fn run() -> Result<bool, String> {
    let mut start_of_name = String::new();
    let mut passed_on = Vec::new();
    let mut arguments = std::env::args().skip(1);
    while let Some(name) = arguments.next() {
        let value = arguments.next().ok_or(USAGE)?;
        match name.as_str() {
            "--only" => start_of_name = value,
            "--count" | "--seed" => passed_on.extend([name, value]),
            _ => return Err(USAGE.to_string()),
        }
    }
    let package = package()?;
    let mut changes = table::parse(&workshop::read(&package.join("mutants/table.txt"))?)?;
    changes.retain(|change| change.name.starts_with(&start_of_name));
    let workshop = Workshop::new(package)?;
    workshop.build()?;
    if let Some(said) = workshop.difference(&UNCHANGED.map(str::to_string))? {
        return Err(format!("the unchanged copy differs:\n{said}"));
    }
    try_all(&workshop, &changes, &passed_on)
}

/// The package's folder, seen from it or from the repository's.
fn package() -> Result<&'static Path, String> {
    let here = [".", "second"].map(Path::new);
    let found = here.into_iter().find(|folder| folder.join("mutants/table.txt").exists());
    found.ok_or(USAGE.to_string())
}

/// Answers whether all were noticed.
fn try_all(
    workshop: &Workshop,
    changes: &[Change],
    passed_on: &[String],
) -> Result<bool, String> {
    let mut unnoticed = Vec::new();
    for change in changes {
        let start = Instant::now();
        let difference = workshop.with(change, || workshop.difference(passed_on));
        let difference = difference.map_err(|error| format!("{}: {error}", change.name))?;
        let seconds = start.elapsed().as_secs();
        let verdict = if difference.is_some() { "noticed" } else { "NOT NOTICED" };
        let first = difference.iter().flat_map(|said| said.lines()).next().unwrap_or("");
        println!("{:<44} {verdict} ({seconds} s): {first}", change.name);
        if difference.is_none() {
            unnoticed.push(&change.name);
        }
    }
    println!("{} of {} noticed", changes.len() - unnoticed.len(), changes.len());
    for name in &unnoticed {
        println!("not noticed: {name}");
    }
    Ok(unnoticed.is_empty() && !changes.is_empty())
}
