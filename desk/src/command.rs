//! The command line: what is asked, and the commands themselves.

use std::io::{self, IsTerminal};

use crate::answer::Transcript;
use crate::bytes;
use crate::draw::{self, View};
use crate::failure::Failure;
use crate::mistake::quoted;
use crate::naming;
use crate::output;
use crate::proved::{Bench, Proved};
use crate::refusal;
use crate::run::{self, Source, Trial};

const HELP: &str = "\
stand: a stand as text, tried on the proved bench, and seen

    stand run FILE             each event in words beside the bench's line, then the counters
    stand run --quiet FILE     the bench's lines alone
    stand check FILE           reads the file and has the proved reader read the stand; runs nothing
    stand draw FILE            a picture (SVG) of the stand after the run; pulled cables are dashed
    stand draw --to GAUGE FILE the same, with the ports recorded for that gauge as arrows
    stand bytes FILE           the bench's input
    stand text FILE.bin        a stand file of the bench's input, with invented names
    stand help                 this

draw, bytes and text write to standard output, or into a file with --out FILE.

A stand file has a statement on each line; # starts a comment:

    head S0 ports 4 hops 16 salt 1       hops (or `hops default`: 16) and salt (0) may be left out
    gauge P1 on S0 port 0 address 02:00:00:00:00:01
    cable C0 from S0 port 1 to S1 port 2
    send P1 to P2                        or to an address, or to everyone
    take 0                               the copy at that place of the list, the oldest at 0
    take all                             until nothing is in flight, first come, first served
    take shuffled 7                      the same in an order drawn from the seed 7
    pull C0
    plug C0

Heads, gauges and cables in any order, then the events. desk/FORMAT.md says it all.
";

/// What is on a command line behind the command's name.
#[derive(Default)]
struct Arguments {
    file: String,
    quiet: bool,
    to: Option<String>,
    out: Option<String>,
}

struct Command {
    name: &'static str,
    options: &'static [&'static str],
    act: fn(&Arguments) -> Result<(), Failure>,
}

const COMMANDS: [Command; 5] = [
    Command { name: "run", options: &["--quiet"], act: run },
    Command { name: "check", options: &[], act: check },
    Command { name: "draw", options: &["--to", "--out"], act: draw },
    Command { name: "bytes", options: &["--out"], act: bytes },
    Command { name: "text", options: &["--out"], act: text },
];

fn usage(why: &str) -> Failure {
    Failure::Usage(format!("stand: {why}\n`stand help` shows the commands\n"))
}

/// Does what the command line says.
pub fn command(words: &[String]) -> Result<(), Failure> {
    let Some((name, rest)) = words.split_first() else {
        return Err(Failure::Usage(HELP.to_string()));
    };
    if ["help", "--help", "-h"].contains(&name.as_str()) {
        return output::put(HELP.as_bytes(), None);
    }
    match COMMANDS.iter().find(|command| command.name == name) {
        Some(command) => (command.act)(&arguments(command, rest)?),
        None => Err(usage(&format!("there is no command {name}"))),
    }
}

fn arguments(command: &Command, words: &[String]) -> Result<Arguments, Failure> {
    let mut arguments = Arguments::default();
    let mut words = words.iter();
    while let Some(word) = words.next() {
        let needs = || usage(&format!("{word} needs a word behind it"));
        match word.as_str() {
            option if option.starts_with('-') && !command.options.contains(&option) => {
                return Err(usage(&format!("{} has no option {option}", command.name)));
            }
            "--quiet" => arguments.quiet = true,
            "--to" => arguments.to = Some(words.next().ok_or_else(needs)?.clone()),
            "--out" => arguments.out = Some(words.next().ok_or_else(needs)?.clone()),
            file if arguments.file.is_empty() => arguments.file = file.to_string(),
            more => return Err(usage(&format!("one file is enough: {more}"))),
        }
    }
    if arguments.file.is_empty() {
        return Err(usage(&format!("{} needs a file", command.name)));
    }
    Ok(arguments)
}

/// The bench's own word for a refused stand goes where its lines go.
fn run(arguments: &Arguments) -> Result<(), Failure> {
    match told(&arguments.file, arguments.quiet) {
        Ok(told) => output::put(told.as_bytes(), None),
        Err(failure) => {
            if let Failure::Refused { number, .. } = failure {
                output::put(format!("refused {number}\n").as_bytes(), None)?;
            }
            Err(failure)
        }
    }
}

fn told(file: &str, quiet: bool) -> Result<String, Failure> {
    let proved = Proved::here()?;
    let trial = Trial::read(file, &proved)?;
    let printed = trial.printed(&proved)?;
    if quiet {
        return Ok(printed);
    }
    let answer = trial.answer(&printed, &proved)?;
    trial.told(&printed, &answer)
}

fn draw(arguments: &Arguments) -> Result<(), Failure> {
    let (file, proved) = (&arguments.file, Proved::here()?);
    let trial = Trial::read(file, &proved)?;
    let stand = &trial.source.stand;
    let to = match &arguments.to {
        Some(name) => Some(gauge(&trial.source, name)?),
        None => None,
    };
    let printed = trial.printed(&proved)?;
    let answer = trial.answer(&printed, &proved)?;
    let svg = draw::svg(&View { stand, answer: &answer, to, title: file })?;
    output::put(svg.as_bytes(), arguments.out.as_deref())
}

/// The number of the gauge that --to names.
fn gauge(source: &Source, name: &str) -> Result<usize, Failure> {
    let gauges = &source.stand.gauges;
    gauges.iter().position(|gauge| gauge.name == name).ok_or_else(|| {
        let names: Vec<&str> = gauges.iter().map(|gauge| gauge.name.as_str()).collect();
        let (file, name, names) = (&source.file, quoted(name), names.join(", "));
        Failure::Stand(format!("{file}: there is no gauge {name}; its gauges: {names}\n"))
    })
}

fn check(arguments: &Arguments) -> Result<(), Failure> {
    let file = &arguments.file;
    let source = Source::read(file)?;
    source.check(&Proved::here()?)?;
    let stand = &source.stand;
    let counted = [
        (stand.heads.len(), "heads"),
        (stand.gauges.len(), "gauges"),
        (stand.cables.len(), "cables"),
        (stand.orders.len(), "lines of events"),
    ];
    let counted: Vec<String> =
        counted.iter().map(|(number, what)| format!("{number} {what}")).collect();
    output::put(format!("{file}: {}\n", counted.join(", ")).as_bytes(), None)
}

fn bytes(arguments: &Arguments) -> Result<(), Failure> {
    let out = arguments.out.as_deref();
    if out.is_none() && io::stdout().is_terminal() {
        return Err(usage("bytes are not for a terminal: --out FILE writes them into a file"));
    }
    let trial = Trial::read(&arguments.file, &Proved::here()?)?;
    output::put(&trial.input, out)
}

fn text(arguments: &Arguments) -> Result<(), Failure> {
    let (file, out) = (&arguments.file, arguments.out.as_deref());
    let input = run::read(file)?;
    let refused = |number: u8, what: &str| {
        let words = refusal::words(number);
        Failure::Stand(format!("{file}: {what} {number}: {words}\n"))
    };
    match Proved::here()?.judge(&input)? {
        Transcript::Refused(number) => Err(refused(number, "refused")),
        Transcript::Lines { lines, stopped: true } => {
            let bad = lines.len() + 1;
            Err(refused(20, &format!("event {bad} is no record, stop")))
        }
        Transcript::Lines { .. } => match bytes::records(&input) {
            Some(records) => output::put(naming::text(&records).as_bytes(), out),
            None => Err(Failure::Machine(format!(
                "{file}: the desk can't take apart what the bench accepts\n"
            ))),
        },
    }
}
