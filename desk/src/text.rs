//! The reader of stand files: each line is read for itself, so that a file shows
//! all its mistakes at once. Names are looked up afterwards (see `numbering`).

use crate::line::{Line, Name};
use crate::mistake::Mistake;
use crate::stand::{Address, Event, Lined, Until};

const HEAD: &str = "head S0 ports 4 hops 16 salt 1";
const GAUGE: &str = "gauge P1 on S0 port 0 address 02:00:00:00:00:01";
const CABLE: &str = "cable C0 from S0 port 1 to S1 port 2";
const SEND: &str = "send P1 to P2";
const TAKE: &str = "take all";
const PULL: &str = "pull C0";
const SET: &str = "set C0 to 1";

/// What a name is the name of.
#[derive(Clone, Copy, PartialEq, Eq, Debug)]
pub enum Kind {
    Head,
    Gauge,
    Cable,
}

impl Kind {
    pub fn word(self) -> &'static str {
        match self {
            Kind::Head => "head",
            Kind::Gauge => "gauge",
            Kind::Cable => "cable",
        }
    }

    /// A line that gives something of this kind its name.
    pub fn example(self) -> &'static str {
        match self {
            Kind::Head => HEAD,
            Kind::Gauge => GAUGE,
            Kind::Cable => CABLE,
        }
    }
}

/// A gauge or cable that an event is about: by name, or by the bench's number.
#[derive(Clone, PartialEq, Eq, Debug)]
pub enum Which {
    Named(Name),
    Numbered(u8),
}

#[derive(Clone, PartialEq, Eq, Debug)]
pub enum To {
    Gauge(Name),
    Address(Address),
}

/// A port of a head that is still a name.
#[derive(Clone, PartialEq, Eq, Debug)]
pub struct Plug {
    pub head: Name,
    pub port: u8,
}

#[derive(Clone, PartialEq, Eq, Debug)]
pub enum Body {
    Head { ports: u8, hops: u8, salt: u32 },
    Gauge { at: Plug, address: Address },
    Cable { ends: [Plug; 2] },
}

impl Body {
    pub fn kind(&self) -> Kind {
        match self {
            Body::Head { .. } => Kind::Head,
            Body::Gauge { .. } => Kind::Gauge,
            Body::Cable { .. } => Kind::Cable,
        }
    }
}

/// A part of the description. Without a body its line has a mistake, which has been
/// noted; its name counts, so that no use of it is another mistake.
#[derive(Clone, PartialEq, Eq, Debug)]
pub struct Part {
    pub name: Name,
    pub kind: Kind,
    pub body: Option<Body>,
}

#[derive(Clone, PartialEq, Eq, Debug)]
pub enum Asked {
    Send { gauge: Which, to: To },
    Set { cable: Which, state: u8 },
    Take(Event),
    Takes(Until),
}

/// What the lines of a file say, each for itself.
#[derive(Default)]
pub struct Lines {
    pub parts: Vec<Lined<Part>>,
    pub asked: Vec<Lined<Asked>>,
    pub mistakes: Vec<Mistake>,
}

pub fn read(file: &[u8]) -> Lines {
    const BYTE_ORDER_MARK: &[u8] = b"\xef\xbb\xbf";
    let file = file.strip_prefix(BYTE_ORDER_MARK).unwrap_or(file);
    let mut lines = Lines::default();
    for (at, bytes) in file.split(|&byte| byte == b'\n').enumerate() {
        let bytes = bytes.strip_suffix(b"\r").unwrap_or(bytes);
        let read = match std::str::from_utf8(bytes) {
            Ok(text) => lines.line(Line::new(at + 1, text, HEAD)),
            Err(error) => Err(not_text(at + 1, &bytes[..error.valid_up_to()])),
        };
        lines.mistakes.extend(read.err());
    }
    lines
}

fn not_text(line: usize, before: &[u8]) -> Mistake {
    let column = String::from_utf8_lossy(before).chars().count() + 1;
    let what = "this byte isn't text".to_string();
    Mistake { line, column, what, expected: "UTF-8 text".to_string(), example: HEAD }
}

impl Lines {
    fn line(&mut self, mut line: Line) -> Result<(), Mistake> {
        if line.is_empty() {
            return Ok(());
        }
        for kind in [Kind::Head, Kind::Gauge, Kind::Cable] {
            if line.peek() == Some(kind.word()) {
                return self.part(line, kind);
            }
        }
        let number = line.number;
        let what = event(&mut line)?;
        line.end()?;
        self.asked.push(Lined { line: number, what });
        Ok(())
    }

    fn part(&mut self, mut line: Line, kind: Kind) -> Result<(), Mistake> {
        line.example = kind.example();
        if !self.asked.is_empty() {
            return Err(line.unexpected("every head, gauge and cable before the first event"));
        }
        line.word(kind.word())?;
        let rule = "a letter, then letters, digits, - or _, at most 32";
        let name = line.name(&format!("a name for this {} ({rule})", kind.word()))?;
        let body = body(&mut line, kind).and_then(|body| line.end().map(|()| body));
        let (body, mistake) = match body {
            Ok(body) => (Some(body), Ok(())),
            Err(mistake) => (None, Err(mistake)),
        };
        self.parts.push(Lined { line: line.number, what: Part { name, kind, body } });
        mistake
    }
}

fn body(line: &mut Line, kind: Kind) -> Result<Body, Mistake> {
    match kind {
        Kind::Head => head(line),
        Kind::Gauge => gauge(line),
        Kind::Cable => cable(line),
    }
}

fn head(line: &mut Line) -> Result<Body, Mistake> {
    line.word("ports")?;
    let ports = line.byte("how many ports the head has")?;
    let limited = line.accept("hops") && !line.accept("default");
    let hops = if limited { line.byte("the hop limit (0 or default: 16)")? } else { 0 };
    let salted = line.accept("salt");
    let salt = if salted { line.number("the salt", u64::from(u32::MAX))? as u32 } else { 0 };
    Ok(Body::Head { ports, hops, salt })
}

fn gauge(line: &mut Line) -> Result<Body, Mistake> {
    line.word("on")?;
    let at = plug(line)?;
    line.word("address")?;
    Ok(Body::Gauge { at, address: line.address()? })
}

fn cable(line: &mut Line) -> Result<Body, Mistake> {
    line.word("from")?;
    let first = plug(line)?;
    line.word("to")?;
    Ok(Body::Cable { ends: [first, plug(line)?] })
}

fn plug(line: &mut Line) -> Result<Plug, Mistake> {
    let head = line.name("the name of a head")?;
    line.word("port")?;
    Ok(Plug { head, port: line.byte("the number of the port")? })
}

fn event(line: &mut Line) -> Result<Asked, Mistake> {
    if line.accept("send") {
        line.example = SEND;
        send(line)
    } else if line.accept("take") {
        line.example = TAKE;
        take(line)
    } else if line.accept("pull") {
        line.example = PULL;
        Ok(Asked::Set { cable: which(line, Kind::Cable)?, state: 0 })
    } else if line.accept("plug") {
        line.example = PULL;
        Ok(Asked::Set { cable: which(line, Kind::Cable)?, state: 1 })
    } else if line.accept("set") {
        line.example = SET;
        set(line)
    } else {
        Err(line.unexpected("head, gauge, cable, send, take, pull or plug"))
    }
}

fn send(line: &mut Line) -> Result<Asked, Mistake> {
    let gauge = which(line, Kind::Gauge)?;
    line.word("to")?;
    let to = match line.peek() {
        Some(word) if word.contains(':') => To::Address(line.address()?),
        Some("everyone") => {
            line.accept("everyone");
            To::Address(Address::EVERYONE)
        }
        _ => To::Gauge(line.name("the name of a gauge, an address or everyone")?),
    };
    Ok(Asked::Send { gauge, to })
}

fn take(line: &mut Line) -> Result<Asked, Mistake> {
    if line.accept("all") {
        return Ok(Asked::Takes(Until::FirstCome));
    }
    if line.accept("shuffled") {
        let seed = line.number("the seed", u64::MAX)?;
        return Ok(Asked::Takes(Until::Shuffled { seed }));
    }
    let place =
        line.number("all, shuffled and a seed, or a place", u64::from(u16::MAX))? as u16;
    Ok(Asked::Take(Event::Take { place }))
}

fn set(line: &mut Line) -> Result<Asked, Mistake> {
    let cable = which(line, Kind::Cable)?;
    line.word("to")?;
    Ok(Asked::Set { cable, state: line.byte("0 for pulled or 1 for plugged")? })
}

/// A name, or the word `gauge` or `cable` and a number.
fn which(line: &mut Line, kind: Kind) -> Result<Which, Mistake> {
    match line.accept(kind.word()) {
        true => Ok(Which::Numbered(line.byte("the number of a gauge or cable")?)),
        false => Ok(Which::Named(line.name(&format!("the name of a {}", kind.word()))?)),
    }
}
