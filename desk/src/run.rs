//! A stand file tried on the proved bench, from reading it to what the commands show.

use std::fs::File;
use std::io::Read;

use crate::answer::{self, Answer, Transcript};
use crate::bytes;
use crate::failure::Failure;
use crate::mistake::{self, shown};
use crate::numbering;
use crate::proved::{Bench, Proved};
use crate::refusal;
use crate::resolve::{self, Events, Unresolved};
use crate::stand::Stand;
use crate::words::{self, Happened};

/// A file that is longer is no stand: one input holds some 12,000 events.
const LONGEST: u64 = 1 << 24;

/// A stand and the file it was read from.
pub struct Source {
    pub file: String,
    pub stand: Stand,
    text: Vec<u8>,
}

/// A stand whose orders have become events.
pub struct Trial {
    pub source: Source,
    pub events: Events,
    pub input: Vec<u8>,
}

pub fn read(file: &str) -> Result<Vec<u8>, Failure> {
    let mut bytes = Vec::new();
    let read = File::open(file).and_then(|open| open.take(LONGEST + 1).read_to_end(&mut bytes));
    match read {
        Err(error) => Err(Failure::Machine(format!("{file} can't be read: {error}\n"))),
        Ok(count) if count as u64 > LONGEST => {
            Err(Failure::Stand(format!("{file}: longer than {LONGEST} bytes, so no stand\n")))
        }
        Ok(_) => Ok(bytes),
    }
}

impl Source {
    pub fn read(file: &str) -> Result<Self, Failure> {
        let text = read(file)?;
        if text.first() == Some(&1) {
            let how = format!("`stand text {file}` makes a stand file of it");
            let why =
                format!("{file}:1:1: this is the bench's input and not a stand file; {how}\n");
            return Err(Failure::Stand(why));
        }
        match numbering::stand(&text) {
            Ok(stand) => Ok(Source { file: file.to_string(), stand, text }),
            Err(mistakes) => Err(Failure::Stand(mistake::message(file, &mistakes))),
        }
    }

    /// The message for something that a line of the file causes, with the line itself.
    fn at(&self, line: usize, what: &str) -> String {
        let text = self.text.split(|&byte| byte == b'\n').nth(line.saturating_sub(1));
        let text = String::from_utf8_lossy(text.unwrap_or_default());
        format!("{}:{line}: {what}\n    {}\n", self.file, shown(text.trim(), 120))
    }

    /// The description is refused: by which line, the proved reader tells. The first faulty
    /// record decides, so the shortest description that is refused ends with it.
    fn refused(&self, number: u8, proved: &Proved) -> Failure {
        let what = format!("refused {number}: {}", refusal::words(number));
        let faulty = match proved.faulty(&bytes::description(&self.stand)) {
            Ok(faulty) => faulty,
            Err(failure) => return failure,
        };
        let lines = self.stand.record_lines();
        let why = match faulty.and_then(|record| lines.get(record)) {
            Some(line) => self.at(*line, &format!("{what} ({})", refusal::hint(number))),
            None => format!("{}: {what}\n", self.file),
        };
        Failure::Refused { number, why }
    }

    /// Asks the proved reader about the description alone.
    pub fn check(&self, proved: &Proved) -> Result<(), Failure> {
        match proved.judge(&bytes::description(&self.stand).bytes)? {
            Transcript::Refused(number) => Err(self.refused(number, proved)),
            Transcript::Lines { .. } => Ok(()),
        }
    }

    fn unresolved(&self, why: Unresolved, proved: &Proved) -> Failure {
        match why {
            Unresolved::Refused(number) => self.refused(number, proved),
            Unresolved::Failed(failure) => failure,
            Unresolved::TooLong { line, before } => {
                let number = refusal::TOO_MANY;
                let what = format!(
                    "too many events: one input holds 60,000 bytes, and {before} events fill it \
                     (refusal {number}: {})",
                    refusal::words(number)
                );
                Failure::Stand(self.at(line, &what))
            }
        }
    }
}

impl Trial {
    pub fn read(file: &str, proved: &Proved) -> Result<Self, Failure> {
        let source = Source::read(file)?;
        let events = resolve::events(&source.stand, proved)
            .map_err(|why| source.unresolved(why, proved))?;
        let mut input = bytes::description(&source.stand).bytes;
        for event in &events {
            bytes::put_event(&mut input, event.what);
        }
        Ok(Trial { source, events, input })
    }

    /// What the bench program prints, byte for byte.
    pub fn printed(&self, proved: &Proved) -> Result<String, Failure> {
        let printed = proved.printed(&self.input)?;
        match answer::transcript(&printed)? {
            Transcript::Refused(number) => Err(self.source.refused(number, proved)),
            Transcript::Lines { .. } => Ok(printed),
        }
    }

    /// What `vectors` says of the run, whose lines must be the bench program's.
    pub fn answer(&self, printed: &str, proved: &Proved) -> Result<Answer, Failure> {
        let answer = proved.answer(&self.input)?;
        if printed.lines().ne(answer.lines.iter().map(String::as_str)) {
            let why = "stumpclover and vectors disagree about this stand\n".to_string();
            return Err(Failure::Machine(why));
        }
        Ok(answer)
    }

    /// Each event's line with its words, then the counters.
    pub fn told(&self, printed: &str, answer: &Answer) -> Result<String, Failure> {
        let Transcript::Lines { lines, .. } = answer::transcript(printed)? else {
            return Ok(printed.to_string());
        };
        let width = lines.iter().map(|line| line.text.len()).max().unwrap_or(0);
        let mut told = String::new();
        for ((line, report), event) in lines.iter().zip(&answer.reports).zip(&self.events) {
            let (refusal, in_flight) = (line.refusal, line.in_flight);
            let happened =
                Happened { event: *event, report: report.as_ref(), refusal, in_flight };
            let words = words::sentence(&self.source.stand, &happened);
            told += &format!("{:width$}   {words}\n", line.text);
        }
        Ok(told + &words::counters(&answer.counters) + "\n")
    }
}
