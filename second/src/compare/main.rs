//! `compare`: makes inputs from a seed, hands them to this package's second
//! program and to another program, and looks for the first difference.

mod benches;
mod coverage;
mod descriptions;
mod frames;
mod heads;
mod lines;
mod networks;
mod options;
mod process;
mod runs;

use coverage::Coverage;
use options::Options;
use second::random::Random;
use std::io::Write;
use std::time::{Duration, Instant};

/// The calls that are compared. `Bench` is the bench program itself.
#[derive(Clone, Copy, PartialEq, Eq, PartialOrd, Ord)]
pub enum Kind {
    Step,
    Tag,
    Strip,
    Read,
    Write,
    Fresh,
    Event,
    Run,
    Bench,
}

pub const KINDS: [Kind; 9] = [
    Kind::Step,
    Kind::Tag,
    Kind::Strip,
    Kind::Read,
    Kind::Write,
    Kind::Fresh,
    Kind::Event,
    Kind::Run,
    Kind::Bench,
];

impl Kind {
    pub fn word(self) -> &'static str {
        match self {
            Kind::Step => "step",
            Kind::Tag => "tag",
            Kind::Strip => "strip",
            Kind::Read => "read",
            Kind::Write => "write",
            Kind::Fresh => "fresh",
            Kind::Event => "event",
            Kind::Run => "run",
            Kind::Bench => "bench",
        }
    }

    /// An item's kind follows from its number. Few are runs of the bench
    /// program, because each of those costs a start.
    fn of(number: u64) -> Kind {
        if number % 256 == 255 {
            return Kind::Bench;
        }
        match number % 64 {
            0..=20 => Kind::Step,
            21..=24 => Kind::Tag,
            25..=28 => Kind::Strip,
            29..=36 => Kind::Read,
            37..=42 => Kind::Write,
            43 => Kind::Fresh,
            44..=58 => Kind::Event,
            _ => Kind::Run,
        }
    }
}

/// What the other program's types can hold, and how it keeps copies.
#[derive(Clone, Copy)]
pub struct Widths {
    /// The largest counter.
    pub counter: u64,
    /// Copies as switch and port instead of link and end.
    pub by_port: bool,
}

/// One input. A vector is a line without its newline.
struct Item {
    number: u64,
    kind: Kind,
    input: Vec<u8>,
    labels: Vec<&'static str>,
}

fn make(seed: u64, number: u64, widths: Widths) -> Item {
    let r = &mut Random::new(seed, number);
    let kind = Kind::of(number);
    let mut labels = Vec::new();
    let line = match kind {
        Kind::Step => heads::step_vector(r, &mut labels),
        Kind::Tag => frames::tag_vector(r, &mut labels),
        Kind::Strip => frames::strip_vector(r, &mut labels),
        Kind::Read => {
            let (bytes, zeros) = descriptions::input(r, &mut labels);
            lines::input("read", &bytes, zeros)
        }
        Kind::Write => benches::write_vector(r, &mut labels),
        Kind::Fresh => benches::fresh_vector(r, &mut labels),
        Kind::Event => benches::event_vector(r, &mut labels, widths),
        Kind::Run => {
            let (bytes, zeros) = runs::input(r, &mut labels);
            lines::input("run", &bytes, zeros)
        }
        Kind::Bench => {
            let (mut input, zeros) = runs::input(r, &mut labels);
            input.resize(input.len() + zeros, 0);
            return Item { number, kind, input, labels };
        }
    };
    Item { number, kind, input: line.into_bytes(), labels }
}

/// A difference, or the reason why there is no answer.
struct Difference {
    number: u64,
    kind: Kind,
    input: Vec<u8>,
    second: Vec<u8>,
    other: Vec<u8>,
    trouble: Option<String>,
}

fn main() {
    let options = match Options::from_arguments() {
        Ok(options) => options,
        Err(message) => {
            eprintln!("{message}\n\n{}", options::USAGE);
            std::process::exit(3);
        }
    };
    let result = match options.show {
        Some(number) => show(&options, number),
        None => compare(&options),
    };
    match result {
        Ok(code) => std::process::exit(code),
        Err(message) => {
            eprintln!("{message}");
            std::process::exit(3);
        }
    }
}

/// Prints an item's input as it is fed to both programs.
fn show(options: &Options, number: u64) -> Result<i32, String> {
    let item = make(options.seed, number, options.widths);
    let newline: &[u8] = if item.kind == Kind::Bench { b"" } else { b"\n" };
    let input = [&item.input[..], newline].concat();
    std::io::stdout().write_all(&input).map_err(|error| error.to_string())?;
    Ok(0)
}

/// Goes through all numbers, a batch at a time.
fn compare(options: &Options) -> Result<i32, String> {
    let start = Instant::now();
    let mut coverage = Coverage::default();
    let numbers: Vec<u64> = match options.only {
        Some(number) => vec![number],
        None => (0..options.count).collect(),
    };
    let mut batch = Vec::new();
    let mut size = 0;
    for (place, number) in numbers.iter().enumerate() {
        let item = make(options.seed, *number, options.widths);
        if !options.without.contains(&item.kind) {
            size += item.input.len();
            batch.push(item);
        }
        let last = place + 1 == numbers.len();
        if last || batch.len() >= options.batch || size > 16_000_000 {
            if let Some(difference) = compare_batch(options, &batch, &mut coverage)? {
                report(options, &difference)?;
                return Ok(1);
            }
            batch.clear();
            size = 0;
        }
    }
    let seconds = start.elapsed().as_secs_f32();
    println!("no difference in {} items, seed {}, {seconds:.1} s", numbers.len(), options.seed);
    if options.only.is_some() {
        return Ok(0);
    }
    let kinds: Vec<Kind> =
        KINDS.into_iter().filter(|kind| !options.without.contains(kind)).collect();
    let missing = coverage.print(&kinds);
    for what in &missing {
        println!("did not occur: {what}");
    }
    Ok(if missing.is_empty() { 0 } else { 2 })
}

/// The difference with the lowest number in a batch.
fn compare_batch(
    options: &Options,
    batch: &[Item],
    coverage: &mut Coverage,
) -> Result<Option<Difference>, String> {
    let (alone, vectors): (Vec<&Item>, Vec<&Item>) =
        batch.iter().partition(|item| item.kind == Kind::Bench);
    let mut first = compare_vectors(options, &vectors, coverage)?;
    for item in alone {
        if first.as_ref().is_some_and(|first| first.number < item.number) {
            break;
        }
        if let Some(difference) = compare_bench(options, item, coverage)? {
            first = Some(difference);
            break;
        }
    }
    Ok(first)
}

fn compare_vectors(
    options: &Options,
    items: &[&Item],
    coverage: &mut Coverage,
) -> Result<Option<Difference>, String> {
    let Some(last) = items.last() else {
        return Ok(None);
    };
    let lines: Vec<&[u8]> = items.iter().flat_map(|item| [&item.input, &b"\n"[..]]).collect();
    let input = lines.concat();
    // The other program is started first, so that both work at the same time.
    let running = process::start(&options.other_vectors, input.clone())?;
    let second = answer_vectors(options, items, input)?;
    let other = running.finish(Duration::from_secs(options.timeout));
    let (ours, theirs) = (answers(&second), answers(&other.bytes));
    for (place, item) in items.iter().enumerate() {
        let our = ours.get(place).copied().unwrap_or_default();
        let their = theirs.get(place).copied().unwrap_or_default();
        coverage.count(item.kind, &item.labels, &String::from_utf8_lossy(our));
        if our != their {
            return Ok(Some(difference(item, our, their, other.trouble)));
        }
    }
    // More answers than vectors, or a bad end after all answers.
    if theirs.len() > items.len() || other.trouble.is_some() {
        let more = theirs.get(items.len()).copied().unwrap_or_default();
        let trouble = other.trouble.or(Some("more answers than vectors".to_string()));
        return Ok(Some(difference(last, b"", more, trouble)));
    }
    Ok(None)
}

/// What the second program answers, in a process of its own or in this one.
fn answer_vectors(
    options: &Options,
    items: &[&Item],
    input: Vec<u8>,
) -> Result<Vec<u8>, String> {
    if let Some(command) = &options.second {
        let running = process::start(&format!("{command} vectors"), input)?;
        return Ok(running.finish(Duration::from_secs(options.timeout)).bytes);
    }
    // One by one, so that only the vector at which it stops has no answer.
    let answer = |item: &&Item| {
        let line = String::from_utf8_lossy(&item.input);
        in_process(|| second::vectors::answer(&line), "stopped\nend\n")
    };
    Ok(items.iter().map(answer).collect::<String>().into_bytes())
}

fn compare_bench(
    options: &Options,
    item: &Item,
    coverage: &mut Coverage,
) -> Result<Option<Difference>, String> {
    let running = process::start(&options.other, item.input.clone())?;
    let limit = Duration::from_secs(options.timeout);
    let second = match &options.second {
        Some(command) => process::start(command, item.input.clone())?.finish(limit).bytes,
        None => {
            let print = || second::transcript::print(&item.input);
            in_process(print, "stopped\n").into_bytes()
        }
    };
    let other = running.finish(limit);
    coverage.count(item.kind, &item.labels, &String::from_utf8_lossy(&second));
    if second == other.bytes && other.trouble.is_none() {
        return Ok(None);
    }
    Ok(Some(difference(item, &second, &other.bytes, other.trouble)))
}

/// What the second program answers in this process, or that it stopped.
fn in_process(answer: impl FnOnce() -> String, stopped: &str) -> String {
    let answer = std::panic::catch_unwind(std::panic::AssertUnwindSafe(answer));
    answer.unwrap_or_else(|_| stopped.to_string())
}

fn difference(item: &Item, second: &[u8], other: &[u8], trouble: Option<String>) -> Difference {
    Difference {
        number: item.number,
        kind: item.kind,
        input: item.input.clone(),
        second: second.to_vec(),
        other: other.to_vec(),
        trouble,
    }
}

/// Parts an output into answers: each ends with a line `end`.
fn answers(output: &[u8]) -> Vec<&[u8]> {
    let mut answers = Vec::new();
    let (mut start, mut line) = (0, 0);
    for (at, byte) in output.iter().enumerate() {
        if *byte == b'\n' {
            if &output[line..at] == b"end" {
                answers.push(&output[start..=at]);
                start = at + 1;
            }
            line = at + 1;
        }
    }
    if start < output.len() {
        answers.push(&output[start..]);
    }
    answers
}

/// Writes what reproduces a difference into files, and says where.
fn report(options: &Options, difference: &Difference) -> Result<(), String> {
    let Difference { number, kind, input, second, other, trouble } = difference;
    let folder = &options.out;
    let put = |name: &str, bytes: &[u8]| {
        let path = folder.join(name);
        std::fs::write(&path, bytes).map_err(|error| format!("{}: {error}", path.display()))
    };
    std::fs::create_dir_all(folder).map_err(|error| error.to_string())?;
    let mut input = input.clone();
    if *kind != Kind::Bench {
        input.push(b'\n');
    }
    put("input", &input)?;
    put("second", second)?;
    put("other", other)?;
    println!("difference at number {number}, seed {}, kind {}", options.seed, kind.word());
    if let Some(trouble) = trouble {
        println!("the other program: {trouble}");
    }
    let (ours, theirs) = (String::from_utf8_lossy(second), String::from_utf8_lossy(other));
    let (mut ours, mut theirs) = (ours.lines(), theirs.lines());
    for line in 1.. {
        let (our, their) = (ours.next(), theirs.next());
        if our != their {
            println!("line {line} of the answer");
            println!("  second: {}", our.unwrap_or("(nothing)"));
            println!("  other:  {}", their.unwrap_or("(nothing)"));
            break;
        }
        if our.is_none() {
            break;
        }
    }
    let mode = if *kind == Kind::Bench { "" } else { " vectors" };
    println!("input and both answers: {0}/input, {0}/second, {0}/other", folder.display());
    println!("by hand: second{mode} < {}/input", folder.display());
    println!("again: compare --seed {} --only {number} and the same options", options.seed);
    Ok(())
}
