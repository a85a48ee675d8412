//! A head's switch: refusals 1 to 9, rules 1 to 11.

pub const SLOTS: usize = 64;
const CELL: usize = 10;
const TAG: usize = 6;
const OUR_TYPE: [u8; 2] = [0x88, 0xB5];
pub const NONCES: u32 = 1 << 24;

#[derive(Clone, Copy, Default, PartialEq, Debug)]
pub struct Header {
    pub l: bool,
    pub f: bool,
    pub hc: u8,
    pub nonce: u32,
}

#[derive(Clone, Copy, Default, PartialEq, Debug)]
pub struct Setup {
    pub ports: u8,
    pub live: u16,
    pub host: u16,
    pub limit: u8,
    pub salt: u32,
}

/// Slot i is place i of the three arrays.
#[derive(Clone, Copy, PartialEq, Debug)]
pub struct Switch {
    pub setup: Setup,
    pub nonce: u32,
    pub addresses: [u64; SLOTS],
    pub ports: [u8; SLOTS],
    pub hops: [u8; SLOTS],
}

#[derive(Clone, Copy, PartialEq, Debug)]
pub struct Arrival {
    pub port: u8,
    pub source: u64,
    pub destination: u64,
    pub header: Header,
}

/// The verdict's letter; mask and header are 0 after a drop.
#[derive(Clone, Copy, PartialEq, Debug)]
pub struct Report {
    pub verdict: u8,
    pub mask: u16,
    pub header: Header,
    pub full: bool,
    pub overwrote: bool,
}

#[derive(Clone, Copy, PartialEq, Debug)]
pub enum Answer {
    Refused(u8),
    Done(Report),
}

struct Recorded {
    duplicate: bool,
    overwrote: bool,
}

pub fn address_in(bytes: &[u8]) -> u64 {
    let mut wide = [0u8; 8];
    wide[2..].copy_from_slice(&bytes[..6]);
    u64::from_be_bytes(wide)
}

pub fn is_source(address: u64) -> bool {
    address != 0 && address < 1 << 48 && address >> 40 & 1 == 0
}

pub fn has_port(mask: u16, port: u8) -> bool {
    port < 16 && mask >> port & 1 == 1
}

fn header_in(frame: &[u8]) -> Header {
    let word = u32::from_be_bytes([frame[14], frame[15], frame[16], frame[17]]);
    Header {
        l: word >> 31 == 1,
        f: word >> 30 & 1 == 1,
        hc: (word >> 24) as u8 & 63,
        nonce: word & 0xff_ffff,
    }
}

fn header_bytes(h: Header) -> [u8; 4] {
    let first = (h.l as u32) << 31 | (h.f as u32) << 30 | (h.hc as u32 & 63) << 24;
    (first | h.nonce & 0xff_ffff).to_be_bytes()
}

fn key_of(a: &Arrival, l: bool) -> [u8; CELL] {
    let mut key = [0u8; CELL];
    key[..6].copy_from_slice(&a.source.to_be_bytes()[2..]);
    key[6..9].copy_from_slice(&a.header.nonce.to_be_bytes()[1..]);
    key[9] = l as u8;
    key
}

fn hash_of(salt: u32, key: &[u8; CELL]) -> u32 {
    key.iter().fold(salt, |h, &byte| (h.rotate_left(5) ^ byte as u32).wrapping_add(0x9E37_79B9))
}

fn record(filter: &mut [u8], salt: u32, key: &[u8; CELL]) -> Recorded {
    let at = hash_of(salt, key) as usize % (filter.len() / CELL) * CELL;
    let cell = &mut filter[at..at + CELL];
    let duplicate = cell == key;
    let overwrote = !duplicate && cell.iter().any(|&b| b != 0);
    cell.copy_from_slice(key);
    Recorded { duplicate, overwrote }
}

fn cell_fits(cell: &[u8]) -> bool {
    if address_in(cell) == 0 {
        return cell[6..] == [0; 4];
    }
    cell[0] & 1 == 0 && cell[9] < 2
}

fn filter_fits(filter: &[u8]) -> bool {
    matches!(filter.len(), 160 | 320 | 640 | 1280 | 2560)
        && filter.chunks_exact(CELL).all(cell_fits)
}

fn names_beyond(ports: u8, mask: u16) -> bool {
    (mask as u32) >> ports != 0
}

impl Switch {
    pub fn fresh(setup: Setup) -> Self {
        Switch { setup, nonce: 0, addresses: [0; SLOTS], ports: [0; SLOTS], hops: [0; SLOTS] }
    }

    fn slot_of(&self, address: u64) -> Option<usize> {
        self.addresses.iter().position(|&a| a == address)
    }

    /// Port and hop count.
    fn lookup(&self, address: u64) -> Option<(u8, u8)> {
        if address == 0 {
            return None;
        }
        self.slot_of(address).map(|slot| (self.ports[slot], self.hops[slot]))
    }

    /// True if the table was full.
    fn learn(&mut self, address: u64, port: u8, hops: u8) -> bool {
        let Some(slot) = self.slot_of(address).or_else(|| self.slot_of(0)) else {
            return true;
        };
        self.addresses[slot] = address;
        self.ports[slot] = port;
        self.hops[slot] = hops;
        false
    }

    fn erase(&mut self, address: u64) {
        if let Some(slot) = self.slot_of(address) {
            self.addresses[slot] = 0;
            self.ports[slot] = 0;
            self.hops[slot] = 0;
        }
    }

    /// Whether each slot is empty or holds what it may, and no address stands twice: one pass
    /// with a small hash table.
    fn table_fits(&self) -> bool {
        let mut seen = [0u64; 2 * SLOTS];
        for slot in 0..SLOTS {
            let (address, port, hops) =
                (self.addresses[slot], self.ports[slot], self.hops[slot]);
            if address == 0 {
                if port != 0 || hops != 0 {
                    return false;
                }
                continue;
            }
            if !is_source(address) || port >= self.setup.ports || !(1..=62).contains(&hops) {
                return false;
            }
            let mut at = (address.wrapping_mul(0x9E37_79B9_7F4A_7C15) >> 57) as usize;
            while seen[at] != 0 {
                if seen[at] == address {
                    return false;
                }
                at = (at + 1) % (2 * SLOTS);
            }
            seen[at] = address;
        }
        true
    }

    /// Refusal 1.
    pub fn is_broken(&self, filter: &[u8]) -> bool {
        let s = &self.setup;
        !(1..=16).contains(&s.ports)
            || names_beyond(s.ports, s.live)
            || names_beyond(s.ports, s.host)
            || !(1..=62).contains(&s.limit)
            || self.nonce >= NONCES
            || !self.table_fits()
            || !filter_fits(filter)
    }

    /// Refusals 2 to 9, or 0.
    fn frame_refusal(&self, port: u8, frame: &[u8], room: usize) -> u8 {
        if port >= self.setup.ports {
            return 2;
        }
        if !has_port(self.setup.live, port) {
            return 3;
        }
        let host = has_port(self.setup.host, port);
        let tag = if host { 0 } else { TAG };
        if !(60 + tag..=1514 + tag).contains(&frame.len()) {
            return 4;
        }
        if !is_source(address_in(&frame[6..12])) {
            return 5;
        }
        let ours = frame[12..14] == OUR_TYPE;
        if host {
            if ours {
                return 6;
            }
        } else {
            if ours && frame[18..20] == OUR_TYPE {
                return 6;
            }
            if !ours {
                return 7;
            }
            if header_in(frame).hc == 0 {
                return 8;
            }
        }
        if room < frame.len() + TAG - tag {
            return 9;
        }
        0
    }

    /// Rule 1 on a host port.
    pub fn from_host(&self, port: u8, source: u64, destination: u64) -> Arrival {
        let f = self.lookup(source).is_none();
        let header = Header { l: true, f, hc: 1, nonce: self.nonce };
        Arrival { port, source, destination, header }
    }

    fn arrival(&self, port: u8, frame: &[u8]) -> Arrival {
        let source = address_in(&frame[6..12]);
        let destination = address_in(&frame[..6]);
        if has_port(self.setup.host, port) {
            return self.from_host(port, source, destination);
        }
        let h = header_in(frame);
        Arrival { port, source, destination, header: Header { hc: h.hc + 1, ..h } }
    }

    fn flood(&self, port: u8) -> u16 {
        self.setup.live & !(1 << port)
    }

    /// Rules 9 to 11.
    fn onward(&mut self, filter: &mut [u8], a: &Arrival, report: &mut Report) {
        let h = a.header;
        let entry = self.lookup(a.destination).filter(|e| has_port(self.setup.live, e.0));
        let Some((port, _)) = entry else {
            if !h.l {
                report.verdict = b'G';
                return;
            }
            let first = h.hc == 1;
            report.verdict = if first { b'N' } else { b'B' };
            report.mask = if first { self.flood(a.port) } else { self.setup.live };
            report.header = Header { l: first, f: true, ..h };
            report.overwrote = record(filter, self.setup.salt, &key_of(a, first)).overwrote;
            return;
        };
        if port != a.port {
            *report = Report { verdict: b'U', mask: 1 << port, header: h, ..*report };
        } else if h.l {
            let header = Header { l: false, ..h };
            *report = Report { verdict: b'H', mask: 1 << port, header, ..*report };
        } else {
            self.erase(a.destination);
            report.verdict = b'E';
        }
    }

    /// Rules 2 to 11.
    pub fn rules(&mut self, filter: &mut [u8], a: &Arrival) -> Report {
        let h = a.header;
        let mut report = Report {
            verdict: b'X',
            mask: 0,
            header: Header::default(),
            full: false,
            overwrote: false,
        };
        if h.hc > self.setup.limit {
            if !h.f {
                self.erase(a.destination);
            }
            return report;
        }
        let mut duplicate = false;
        if h.f {
            let r = record(filter, self.setup.salt, &key_of(a, h.l));
            duplicate = r.duplicate;
            report.overwrote = r.overwrote;
        }
        let entry = self.lookup(a.source);
        if !duplicate && !h.l && entry.is_some_and(|e| e.1 == 1) {
            self.erase(a.destination);
        }
        if entry.is_none_or(|e| h.hc < e.1) || h.l && !duplicate {
            report.full = self.learn(a.source, a.port, h.hc);
        }
        if duplicate {
            report.verdict = b'D';
        } else if h.f {
            report.verdict = b'F';
            report.mask = self.flood(a.port);
            report.header = h;
        } else {
            self.onward(filter, a, &mut report);
        }
        report
    }

    pub fn advance(&mut self, port: u8) {
        if has_port(self.setup.host, port) {
            self.nonce = (self.nonce + 1) % NONCES;
        }
    }

    /// The step without refusal 1.
    #[inline(never)]
    pub fn inner_step(
        &mut self,
        filter: &mut [u8],
        port: u8,
        frame: &[u8],
        out: &mut [u8],
    ) -> Answer {
        let refusal = self.frame_refusal(port, frame, out.len());
        if refusal != 0 {
            return Answer::Refused(refusal);
        }
        let a = self.arrival(port, frame);
        let report = self.rules(filter, &a);
        if matches!(report.verdict, b'F' | b'N' | b'B' | b'H' | b'U') {
            let rest = if has_port(self.setup.host, port) { 12 } else { 18 };
            let rest = &frame[rest..];
            out[..12].copy_from_slice(&frame[..12]);
            out[12..14].copy_from_slice(&OUR_TYPE);
            out[14..18].copy_from_slice(&header_bytes(report.header));
            out[18..18 + rest.len()].copy_from_slice(rest);
        }
        self.advance(port);
        Answer::Done(report)
    }

    /// The public step.
    #[inline(never)]
    pub fn step(
        &mut self,
        filter: &mut [u8],
        port: u8,
        frame: &[u8],
        out: &mut [u8],
    ) -> Answer {
        if self.is_broken(filter) {
            return Answer::Refused(1);
        }
        self.inner_step(filter, port, frame, out)
    }

    /// Refusal 1 alone.
    #[inline(never)]
    pub fn test(&self, filter: &[u8]) -> u8 {
        self.is_broken(filter) as u8
    }
}
