//! What the proved programs print, taken apart: the bench's lines (document 01,
//! "The bench") and the answer of `vectors` to a run (second/FORMAT.md).

use crate::failure::Failure;
use crate::stand::Address;

/// A line of the bench program.
#[derive(Clone, PartialEq, Eq, Debug)]
pub struct BenchLine {
    pub text: String,
    pub refusal: u8,
    pub in_flight: usize,
}

/// Which head stepped, on which arrival port, and the frame's addresses.
#[derive(Clone, Copy, PartialEq, Eq, Debug)]
pub struct Stepped {
    pub head: usize,
    pub port: u8,
    pub source: Address,
    pub destination: Address,
}

/// What an accepted event did.
#[derive(Clone, Copy, PartialEq, Eq, Debug)]
pub struct Report {
    pub verdict: char,
    pub mask: u16,
    pub lost: usize,
    pub cut: usize,
    pub received: u32,
    pub overwrote: bool,
    pub stepped: Option<Stepped>,
}

/// A slot of a head's learning table that isn't empty.
#[derive(Clone, Copy, PartialEq, Eq, Debug)]
pub struct Entry {
    pub head: usize,
    pub address: Address,
    pub port: u8,
}

/// What `vectors` says of a whole run.
#[derive(Clone, PartialEq, Eq, Debug, Default)]
pub struct Answer {
    pub lines: Vec<String>,
    /// One for each line; none where the event was refused.
    pub reports: Vec<Option<Report>>,
    /// Bit n is cable n, 1 is plugged.
    pub states: u64,
    pub entries: Vec<Entry>,
    pub in_flight: usize,
    /// placed, taken, cut, lost, delivered, overwritten, accepted
    pub counters: Vec<u64>,
}

/// What the bench program prints for an input.
#[derive(Clone, PartialEq, Eq, Debug)]
pub enum Transcript {
    Refused(u8),
    Lines { lines: Vec<BenchLine>, stopped: bool },
}

fn unreadable(line: &str) -> Failure {
    let line = crate::mistake::quoted(line);
    Failure::Machine(format!("a proved program answers what the desk can't read: {line}\n"))
}

pub fn transcript(printed: &str) -> Result<Transcript, Failure> {
    if let Some(number) = printed.strip_prefix("refused ") {
        let number = number.trim_end().parse().map_err(|_| unreadable(printed))?;
        return Ok(Transcript::Refused(number));
    }
    let (body, stopped) =
        printed.strip_suffix("stop 20\n").map_or((printed, false), |body| (body, true));
    let lines = body.lines().map(|line| bench_line(line).ok_or_else(|| unreadable(line)));
    Ok(Transcript::Lines { lines: lines.collect::<Result<_, _>>()?, stopped })
}

fn bench_line(line: &str) -> Option<BenchLine> {
    let tokens: Vec<&str> = line.split(' ').collect();
    let [_, _, refusal, _, _, in_flight] = tokens[..] else { return None };
    let (refusal, in_flight) = (refusal.parse().ok()?, in_flight.parse().ok()?);
    Some(BenchLine { text: line.to_string(), refusal, in_flight })
}

/// The answer to a `run` line, whose description has been accepted.
pub fn run(printed: &str) -> Result<Answer, Failure> {
    let mut answer = Answer::default();
    let mut seat = 0;
    for line in printed.lines() {
        let tokens: Vec<&str> = line.split(' ').collect();
        answer.line(line, &tokens, &mut seat).ok_or_else(|| unreadable(line))?;
    }
    Ok(answer)
}

impl Answer {
    fn line(&mut self, line: &str, tokens: &[&str], seat: &mut usize) -> Option<()> {
        match tokens {
            ["report", fields @ ..] => *self.reports.last_mut()? = Some(report(fields)?),
            ["states", states] => self.states = u64::from_str_radix(states, 16).ok()?,
            ["seat", number] => *seat = number.parse().ok()?,
            ["slot", _, address, port, _hops] => {
                let (head, address, port) =
                    (*seat, self::address(address)?, port.parse().ok()?);
                self.entries.push(Entry { head, address, port });
            }
            ["copies", number] => self.in_flight = number.parse().ok()?,
            ["counters", fields @ ..] => {
                self.counters =
                    fields.iter().map(|field| field.parse().ok()).collect::<Option<_>>()?;
            }
            [number, ..] if number.starts_with(|c: char| c.is_ascii_digit()) => {
                self.lines.push(line.to_string());
                self.reports.push(None);
            }
            ["refused" | "unreadable", ..] => return None,
            _ => {}
        }
        Some(())
    }
}

fn report(fields: &[&str]) -> Option<Report> {
    let (
        &[verdict, mask, _l, _f, _hc, _nonce, _placed, lost, cut, received, overwrote],
        stepped,
    ) = fields.split_first_chunk::<11>()?;
    let stepped = match stepped {
        [] => None,
        [head, port, source, destination] => Some(Stepped {
            head: head.parse().ok()?,
            port: port.parse().ok()?,
            source: address(source)?,
            destination: address(destination)?,
        }),
        _ => return None,
    };
    Some(Report {
        verdict: verdict.chars().next()?,
        mask: u16::from_str_radix(mask, 16).ok()?,
        lost: lost.parse().ok()?,
        cut: cut.parse().ok()?,
        received: u32::from_str_radix(received, 16).ok()?,
        overwrote: overwrote == "1",
        stepped,
    })
}

/// Sixteen hex digits, of which the first four are 0.
fn address(digits: &str) -> Option<Address> {
    let [0, 0, bytes @ ..] = u64::from_str_radix(digits, 16).ok()?.to_be_bytes() else {
        return None;
    };
    Some(Address(bytes))
}
