//! The scope paper's own examples: P1 to P12 and the whole run.

use second::filter::{self, Triple};
use second::frame::{self, Header};
use second::step::{step, Outcome, Switch, Verdict};
use second::table::{Slot, Table};
use second::transcript;

const A: u64 = 0x0200_0000_0001;
const B: u64 = 0x0200_0000_0002;

/// Four live ports, port 0 a host's, limit 16, salt 1, 64 cells.
struct Head {
    switch: Switch,
    filter: [u8; 640],
    out: [u8; 100],
}

impl Head {
    fn new(entries: &[(u64, u8, u8)]) -> Head {
        let mut table = Table::empty();
        for &(address, port, hops) in entries {
            assert!(!table.learn(address, port, hops));
        }
        let switch =
            Switch { ports: 4, live: 15, hosts: 1, limit: 16, salt: 1, next_nonce: 0, table };
        Head { switch, filter: [0; 640], out: [0xEE; 100] }
    }

    /// A host frame from A on port 0.
    fn host(&mut self, destination: u64) -> Outcome {
        let frame = host_frame(destination);
        let outcome =
            step(&mut self.switch, &mut self.filter, 0, &frame, &mut self.out).unwrap();
        self.check_output(&frame, &outcome);
        outcome
    }

    /// A tagged frame from A on a switch port, nonce 0.
    fn tagged(&mut self, port: u8, hc: u8, flags: &str, destination: u64) -> Outcome {
        let (l, f) = (flags.contains('L'), flags.contains('F'));
        let mut frame = [0; 66];
        let host_frame = host_frame(destination);
        frame::tag(&host_frame, Header { l, f, hc, nonce: 0 }, &mut frame).unwrap();
        let outcome =
            step(&mut self.switch, &mut self.filter, port, &frame, &mut self.out).unwrap();
        self.check_output(&host_frame, &outcome);
        outcome
    }

    /// After a sending verdict the tagged frame stands at the start, after a
    /// drop nothing has changed.
    fn check_output(&mut self, host_frame: &[u8], outcome: &Outcome) {
        let mut expected = [0xEE; 100];
        if outcome.is_drop() {
            assert_eq!((outcome.mask, outcome.header), (0, Header::default()));
        } else {
            frame::tag(host_frame, outcome.header, &mut expected).unwrap();
        }
        assert_eq!(self.out, expected);
        self.out = [0xEE; 100];
    }

    fn entries(&self) -> Vec<(u64, u8, u8)> {
        let full = self.switch.table.slots.iter().filter(|slot| **slot != Slot::EMPTY);
        full.map(|slot| (slot.address, slot.port, slot.hops)).collect()
    }

    fn holds(&mut self, l: bool) -> bool {
        filter::is_duplicate(&self.filter, 1, Triple { source: A, nonce: 0, l })
    }

    fn filter_is_empty(&self) -> bool {
        self.filter == [0; 640]
    }
}

fn host_frame(destination: u64) -> [u8; 60] {
    let mut frame = [0x55; 60];
    frame[..6].copy_from_slice(&frame::address_bytes(destination));
    frame[6..12].copy_from_slice(&frame::address_bytes(A));
    frame[12..14].copy_from_slice(&[0x08, 0x00]);
    frame
}

fn header(l: bool, f: bool, hc: u8) -> Header {
    Header { l, f, hc, nonce: 0 }
}

#[test]
fn p1() {
    let mut head = Head::new(&[]);
    let outcome = head.host(B);
    assert_eq!((outcome.verdict, outcome.mask), (Verdict::F, 0b1110));
    assert_eq!(outcome.header, header(true, true, 1));
    assert_eq!(head.entries(), [(A, 0, 1)]);
    assert_eq!(head.switch.next_nonce, 1);
    assert!(head.holds(true));
}

#[test]
fn p2_and_p3() {
    let mut head = Head::new(&[(A, 0, 1)]);
    let outcome = head.host(B);
    assert_eq!((outcome.verdict, outcome.mask), (Verdict::N, 0b1110));
    assert_eq!(outcome.header, header(true, true, 1));
    assert!(head.holds(true));
    assert_eq!(head.switch.next_nonce, 1);

    let outcome = head.tagged(2, 2, "FL", B);
    assert_eq!(outcome.verdict, Verdict::D);
    assert_eq!(head.entries(), [(A, 0, 1)]);
    assert_eq!(head.switch.next_nonce, 1);
}

#[test]
fn p4() {
    let mut head = Head::new(&[]);
    let outcome = head.tagged(1, 1, "L", B);
    assert_eq!((outcome.verdict, outcome.mask), (Verdict::B, 0b1111));
    assert_eq!(outcome.header, header(false, true, 2));
    assert_eq!(head.entries(), [(A, 1, 2)]);
    assert!(head.holds(false));
}

#[test]
fn p5() {
    let mut head = Head::new(&[(B, 1, 3)]);
    let outcome = head.tagged(1, 1, "L", B);
    assert_eq!((outcome.verdict, outcome.mask), (Verdict::H, 0b0010));
    assert_eq!(outcome.header, header(false, false, 2));
    assert_eq!(head.entries(), [(B, 1, 3), (A, 1, 2)]);
    assert!(head.filter_is_empty());
}

#[test]
fn p6() {
    let mut head = Head::new(&[(B, 1, 3)]);
    assert_eq!(head.tagged(1, 1, "", B).verdict, Verdict::E);
    assert_eq!(head.entries(), [(A, 1, 2)]);
}

#[test]
fn p7() {
    let mut head = Head::new(&[(A, 0, 1), (B, 1, 3)]);
    assert_eq!(head.tagged(1, 1, "", B).verdict, Verdict::G);
    assert_eq!(head.entries(), [(A, 0, 1)]);
}

#[test]
fn p8() {
    let mut head = Head::new(&[(B, 2, 3)]);
    assert_eq!(head.tagged(1, 16, "L", B).verdict, Verdict::X);
    assert_eq!(head.entries(), []);
}

#[test]
fn p9() {
    let mut head = Head::new(&[(B, 2, 3)]);
    let outcome = head.tagged(1, 15, "L", B);
    assert_eq!((outcome.verdict, outcome.mask), (Verdict::U, 0b0100));
    assert_eq!(outcome.header, header(true, false, 16));
    assert_eq!(head.entries(), [(B, 2, 3), (A, 1, 16)]);
}

#[test]
fn p10() {
    let mut head = Head::new(&[(B, 2, 3)]);
    assert_eq!(head.tagged(1, 16, "FL", B).verdict, Verdict::X);
    assert_eq!(head.entries(), [(B, 2, 3)]);
    assert!(head.filter_is_empty());
}

#[test]
fn p11() {
    let mut head = Head::new(&[(A, 1, 5), (B, 3, 2)]);
    let outcome = head.tagged(2, 2, "", B);
    assert_eq!((outcome.verdict, outcome.mask), (Verdict::U, 0b1000));
    assert_eq!(outcome.header, header(false, false, 3));
    assert_eq!(head.entries(), [(A, 2, 3), (B, 3, 2)]);
}

#[test]
fn p12() {
    let mut head = Head::new(&[(A, 0, 1)]);
    assert_eq!(head.tagged(1, 1, "", A).verdict, Verdict::G);
    assert_eq!(head.entries(), []);
}

fn from_hex(text: &str) -> Vec<u8> {
    let digits: Vec<u8> = text.bytes().filter(|byte| !byte.is_ascii_whitespace()).collect();
    let pairs = digits.chunks(2).map(|pair| std::str::from_utf8(pair).unwrap());
    pairs.map(|pair| u8::from_str_radix(pair, 16).unwrap()).collect()
}

/// The description of the whole run.
pub fn description() -> Vec<u8> {
    from_hex(
        "01
         0007 01 02 10 00000001
         0007 01 02 10 00000002
         0009 02 00 00 020000000001
         0009 02 01 00 020000000002
         0005 03 00 01 01 01",
    )
}

#[test]
fn the_description_reads_back_as_written() {
    let bytes = description();
    assert_eq!(bytes.len(), 48);
    let (network, end) = second::description::read(&bytes).unwrap();
    assert_eq!(end, 48);
    let mut out = [0xEE; 50];
    assert_eq!(second::description::write(&network, &mut out), Ok(48));
    assert_eq!(out[..48], bytes);
    assert_eq!(out[48..], [0xEE; 2]);
}

#[test]
fn the_whole_run() {
    let mut input = description();
    input.extend(from_hex(
        "0008 04 00 020000000002
         0003 05 0000
         0008 04 01 020000000001
         0003 05 0000
         0008 04 00 020000000002
         0003 05 0000",
    ));
    let lines = "1 I 0 F 00000000 1\n\
                 2 T 0 F 00000002 0\n\
                 3 I 0 F 00000000 1\n\
                 4 T 0 F 00000001 0\n\
                 5 I 0 U 00000000 1\n\
                 6 T 0 U 00000002 0\n";
    assert_eq!(transcript::print(&input), lines);
}
