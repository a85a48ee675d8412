//! Names become numbers: heads in the order of the file, gauges sorted by head and
//! port, cables by their lower end. What is wrong with the stand itself (a port
//! that isn't there, one taken twice, too many heads) is the proved reader's to say.

use std::collections::HashMap;

use crate::line::Name;
use crate::mistake::{quoted, Mistake};
use crate::stand::{Address, Cable, End, Event, Gauge, Head, Lined, Order, Stand};
use crate::text::{self, Asked, Body, Kind, Lines, Part, Plug, To, Which};

/// Reads a stand file, or tells all its mistakes.
pub fn stand(file: &[u8]) -> Result<Stand, Vec<Mistake>> {
    let Lines { parts, asked, mistakes } = text::read(file);
    let mut numbering = Numbering { mistakes, ..Numbering::default() };
    numbering.declare(&parts);
    for part in &parts {
        numbering.part(part);
    }
    numbering.sort();
    for asked in &asked {
        numbering.order(asked);
    }
    let Numbering { stand, mut mistakes, .. } = numbering;
    mistakes.sort_by_key(|mistake| (mistake.line, mistake.column));
    if mistakes.is_empty() {
        Ok(stand)
    } else {
        Err(mistakes)
    }
}

/// What a name stands for, and on which line that is said.
struct Declared {
    kind: Kind,
    line: usize,
}

#[derive(Default)]
struct Numbering {
    stand: Stand,
    declared: HashMap<String, Declared>,
    heads: HashMap<String, usize>,
    gauges: HashMap<String, usize>,
    cables: HashMap<String, usize>,
    mistakes: Vec<Mistake>,
}

impl Numbering {
    fn declare(&mut self, parts: &[Lined<Part>]) {
        for Lined { line, what: Part { name, kind, .. } } in parts {
            if let Some(first) = self.declared.get(&name.text) {
                let what = format!("the name {} stands on line {} too", name.text, first.line);
                self.mistake(*line, name.column, what, "a name of its own", *kind);
                continue;
            }
            self.declared.insert(name.text.clone(), Declared { kind: *kind, line: *line });
            if *kind == Kind::Head {
                self.heads.insert(name.text.clone(), self.heads.len());
            }
        }
    }

    /// The example is a line that names something of the kind.
    fn mistake(
        &mut self,
        line: usize,
        column: usize,
        what: String,
        expected: &str,
        kind: Kind,
    ) {
        let (expected, example) = (expected.to_string(), kind.example());
        self.mistakes.push(Mistake { line, column, what, expected, example });
    }

    /// Notes a mistake unless the name was given to something of this kind.
    fn used(&mut self, line: usize, name: &Name, kind: Kind) {
        let what = match self.declared.get(&name.text) {
            Some(declared) if declared.kind == kind => return,
            Some(declared) => format!(
                "{} is a {} (line {}) and not a {}",
                name.text,
                declared.kind.word(),
                declared.line,
                kind.word()
            ),
            None => format!("there is no {} {}", kind.word(), quoted(&name.text)),
        };
        let expected = format!("a name that a {} has", kind.word());
        self.mistake(line, name.column, what, &expected, kind);
    }

    fn part(&mut self, part: &Lined<Part>) {
        let (line, name) = (part.line, part.what.name.text.clone());
        match &part.what.body {
            Some(Body::Head { ports, hops, salt }) => {
                let (ports, hops, salt) = (*ports, *hops, *salt);
                self.stand.heads.push(Head { name, ports, hops, salt, line });
            }
            Some(Body::Gauge { at, address }) => {
                let at = self.end(line, at);
                self.stand.gauges.push(Gauge { name, at, address: *address, line });
            }
            Some(Body::Cable { ends: [a, b] }) => {
                let mut ends = [self.end(line, a), self.end(line, b)];
                ends.sort();
                self.stand.cables.push(Cable { name, ends, line });
            }
            None => {}
        }
    }

    fn end(&mut self, line: usize, plug: &Plug) -> End {
        self.used(line, &plug.head, Kind::Head);
        End { head: number(&self.heads, &plug.head), port: plug.port }
    }

    /// The sort is stable: of two on one port, the later line is the later record.
    fn sort(&mut self) {
        let stand = &mut self.stand;
        stand.gauges.sort_by_key(|gauge| gauge.at);
        stand.cables.sort_by_key(|cable| cable.ends[0]);
        let numbered = |names: Vec<&String>| {
            names.into_iter().enumerate().map(|(at, name)| (name.clone(), at)).collect()
        };
        self.gauges = numbered(stand.gauges.iter().map(|gauge| &gauge.name).collect());
        self.cables = numbered(stand.cables.iter().map(|cable| &cable.name).collect());
    }

    fn order(&mut self, asked: &Lined<Asked>) {
        let line = asked.line;
        let what = match &asked.what {
            Asked::Send { gauge, to } => {
                let gauge = self.which(line, gauge, Kind::Gauge);
                Order::Once(Event::Send { gauge, to: self.destination(line, to) })
            }
            Asked::Set { cable, state } => {
                let cable = self.which(line, cable, Kind::Cable);
                Order::Once(Event::Set { cable, state: *state })
            }
            Asked::Take(event) => Order::Once(*event),
            Asked::Takes(until) => Order::Takes(*until),
        };
        self.stand.orders.push(Lined { line, what });
    }

    fn which(&mut self, line: usize, which: &Which, kind: Kind) -> usize {
        match which {
            Which::Numbered(number) => usize::from(*number),
            Which::Named(name) => {
                self.used(line, name, kind);
                let names = if kind == Kind::Gauge { &self.gauges } else { &self.cables };
                number(names, name)
            }
        }
    }

    fn destination(&mut self, line: usize, to: &To) -> Address {
        match to {
            To::Address(address) => *address,
            To::Gauge(name) => {
                self.used(line, name, Kind::Gauge);
                let gauge = self.stand.gauges.get(number(&self.gauges, name));
                gauge.map_or(Address::EVERYONE, |gauge| gauge.address)
            }
        }
    }
}

/// 0 for a name that isn't there: a mistake has then been noted, and no stand is made.
fn number(names: &HashMap<String, usize>, name: &Name) -> usize {
    names.get(&name.text).copied().unwrap_or(0)
}
