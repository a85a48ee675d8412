//! Stand files that are damaged at chance, from a fixed seed: the reader never panics,
//! and what it complains of stands in the file.

use desk::numbering::stand;
use desk::{bytes, mistake};

const SAMPLES: [&str; 2] =
    [include_str!("../../stands/mid-flood.stand"), include_str!("../../stands/parallel.stand")];

const PIECES: [&[u8]; 16] = [
    b"\n",
    b"\r\n",
    b" ",
    b"\t",
    b"#",
    b"\0",
    b"\xff",
    b"\xc3\xa4",
    b"65536",
    b"0x",
    b":",
    b"head ",
    b"take all\n",
    b"S0",
    b"-1",
    b"99999999999999999999999999999999999999999",
];

struct Chance(u64);

impl Chance {
    fn below(&mut self, bound: usize) -> usize {
        self.0 = self
            .0
            .wrapping_mul(6_364_136_223_846_793_005)
            .wrapping_add(1_442_695_040_888_963_407);
        (self.0 >> 33) as usize % bound
    }

    fn damage(&mut self, file: &mut Vec<u8>) {
        let at = self.below(file.len() + 1);
        let end = (at + self.below(12)).min(file.len());
        match self.below(5) {
            0 => file.truncate(at),
            1 => drop(file.drain(at..end)),
            2 => drop(file.splice(at..at, PIECES[self.below(PIECES.len())].iter().copied())),
            3 => {
                let piece = file[at..end].to_vec();
                let to = self.below(file.len() + 1);
                file.splice(to..to, piece);
            }
            _ if at < file.len() => file[at] = self.below(256) as u8,
            _ => {}
        }
    }
}

/// Each mistake is in a line of the file, not behind its end, and says what was expected.
fn complaints_stand_in(file: &[u8]) -> bool {
    let Err(mistakes) = stand(file) else { return false };
    assert!(!mistakes.is_empty());
    let lines: Vec<&[u8]> = file.split(|&byte| byte == b'\n').collect();
    for mistake in &mistakes {
        let line = lines.get(mistake.line - 1).expect("a line of the file");
        let width = String::from_utf8_lossy(line).chars().count();
        assert!((1..=width + 1).contains(&mistake.column), "{mistake:?}");
        assert!(!mistake.expected.is_empty() && !mistake.example.is_empty());
    }
    let message = mistake::message("x.stand", &mistakes);
    assert!(message.starts_with(&format!("x.stand:{}:", mistakes[0].line)));
    true
}

#[test]
fn damaged_files_are_read_or_complained_of() {
    let mut chance = Chance(20_250_301);
    let (mut read, mut complained) = (0, 0);
    for round in 0..20_000 {
        let mut file = SAMPLES[round % SAMPLES.len()].as_bytes().to_vec();
        for _ in 0..=chance.below(4) {
            chance.damage(&mut file);
        }
        match complaints_stand_in(&file) {
            true => complained += 1,
            false => read += 1,
        }
    }
    assert!(read > 1_000 && complained > 5_000, "{read} {complained}");
}

#[test]
fn garbage_is_complained_of() {
    let mut chance = Chance(7);
    for length in 0..2_000 {
        let file: Vec<u8> = (0..length).map(|_| chance.below(256) as u8).collect();
        assert_eq!(complaints_stand_in(&file), stand(&file).is_err());
    }
    assert!(complaints_stand_in(&[b'x'; 3_000_000]));
    assert!(complaints_stand_in("head S ports 4\n".repeat(5_000).as_bytes()));
}

#[test]
fn what_is_read_has_the_records_of_its_lines() {
    for sample in SAMPLES {
        let stand = stand(sample.as_bytes()).expect("a sample is read");
        let count = |word: &str| sample.lines().filter(|line| line.starts_with(word)).count();
        let records = bytes::records(&bytes::description(&stand).bytes).expect("records");
        assert_eq!(records.heads.len(), count("head "));
        assert_eq!(records.gauges.len(), count("gauge "));
        assert_eq!(records.cables.len(), count("cable "));
    }
}
