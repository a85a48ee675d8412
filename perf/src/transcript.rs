//! What the bench program prints for an input.
use crate::bench::{Answer, Bench, Event};
use crate::stand::Stand;

fn put_decimal(out: &mut Vec<u8>, n: u32) {
    let mut digits = [0u8; 10];
    let mut at = digits.len();
    let mut left = n;
    loop {
        at -= 1;
        digits[at] = b'0' + (left % 10) as u8;
        left /= 10;
        if left == 0 {
            break;
        }
    }
    out.extend_from_slice(&digits[at..]);
}

fn put_hex(out: &mut Vec<u8>, n: u32) {
    let mut digits = [0u8; 8];
    for (i, digit) in digits.iter_mut().enumerate() {
        *digit = b"0123456789abcdef"[(n >> (28 - 4 * i) & 15) as usize];
    }
    out.extend_from_slice(&digits);
}

fn put_line(out: &mut Vec<u8>, number: u32, event: &Event, answer: &Answer, flying: usize) {
    let letter = match event {
        Event::Present { .. } => b'I',
        Event::Take { .. } => b'T',
        Event::Link { .. } => b'K',
    };
    let (refusal, verdict, received) = match answer {
        Answer::Refused(n) => (*n, b'R', 0),
        Answer::Stepped(d) => (0, d.report.verdict, d.received),
        Answer::Linked(_) => (0, b'K', 0),
    };
    put_decimal(out, number);
    out.extend_from_slice(&[b' ', letter, b' ']);
    put_decimal(out, refusal as u32);
    out.extend_from_slice(&[b' ', verdict, b' ']);
    put_hex(out, received);
    out.push(b' ');
    put_decimal(out, flying as u32);
    out.push(b'\n');
}

/// The whole transcript.
#[inline(never)]
pub fn transcript(input: &[u8], out: &mut Vec<u8>) {
    out.clear();
    let (stand, mut at) = match Stand::read(input) {
        Ok(read) => read,
        Err(number) => {
            out.extend_from_slice(b"refused ");
            put_decimal(out, number as u32);
            out.push(b'\n');
            return;
        }
    };
    let mut bench = Bench::fresh(stand);
    let mut number = 1;
    while at < input.len() {
        let Some((event, size)) = Event::read(input, at) else {
            out.extend_from_slice(b"stop 20\n");
            return;
        };
        let answer = bench.happen(&event);
        put_line(out, number, &event, &answer, bench.flying);
        number += 1;
        at += size;
    }
}
