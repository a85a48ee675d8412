//! Inputs made at chance, from a fixed seed: a description in order, then events with any
//! numbers. The bytes of their text are the same bytes.

use desk::bytes::{description, put_event, records};
use desk::naming::text;
use desk::numbering::stand;
use desk::stand::Order;

struct Chance(u64);

impl Chance {
    fn below(&mut self, bound: u64) -> u64 {
        self.0 ^= self.0 << 13;
        self.0 ^= self.0 >> 7;
        self.0 ^= self.0 << 17;
        (self.0 >> 16) % bound
    }

    fn byte(&mut self) -> u8 {
        self.below(256) as u8
    }

    fn record(&mut self, input: &mut Vec<u8>, start: &[u8], random: usize) {
        input.extend([0, (start.len() + random) as u8]);
        input.extend(start);
        input.extend((0..random).map(|_| self.byte()));
    }

    /// All ports of the stand are dealt out in order, to a gauge, a cable or nothing.
    fn stand(&mut self, input: &mut Vec<u8>) {
        let heads = self.below(17) as u8;
        let (mut free, mut cabled) = (Vec::new(), Vec::new());
        for head in 0..heads {
            let (ports, hops) = (1 + self.below(8) as u8, self.below(63) as u8);
            self.record(input, &[1, ports, hops], 4);
            free.extend((0..ports).map(|port| [head, port]));
        }
        for (number, [head, port]) in free.into_iter().enumerate() {
            match self.below(4) {
                0 => {
                    let last = number as u8;
                    self.record(input, &[2, head, port, 2, 0, 0, 0, 0, last], 0);
                }
                1 | 2 => cabled.push([head, port]),
                _ => {}
            }
        }
        for pair in cabled.chunks_exact(2) {
            self.record(input, &[3, pair[0][0], pair[0][1], pair[1][0], pair[1][1]], 0);
        }
    }

    fn event(&mut self, input: &mut Vec<u8>) {
        match self.below(6) {
            0 => self.record(input, &[4], 7),
            1 => {
                let (gauge, last) = (self.below(40) as u8, self.below(40) as u8);
                self.record(input, &[4, gauge, 2, 0, 0, 0, 0, last], 0);
            }
            2 => self.record(input, &[4, 0, 255, 255, 255, 255, 255, 255], 0),
            3 => self.record(input, &[5], 2),
            4 => self.record(input, &[6], 2),
            _ => {
                let (cable, state) = (self.below(40) as u8, self.below(3) as u8);
                self.record(input, &[6, cable, state], 0);
            }
        }
    }
}

#[test]
fn the_bytes_of_an_inputs_text_are_the_input() {
    let mut chance = Chance(88_172_645_463_325_252);
    let mut events = 0;
    for _ in 0..3_000 {
        let mut input = vec![1];
        chance.stand(&mut input);
        for _ in 0..chance.below(30) {
            chance.event(&mut input);
        }
        let text = text(&records(&input).expect("records"));
        let stand =
            stand(text.as_bytes()).unwrap_or_else(|mistakes| panic!("{mistakes:?}\n{text}"));
        let mut back = description(&stand).bytes;
        for order in &stand.orders {
            let Order::Once(event) = order.what else { panic!("only single events in {text}") };
            put_event(&mut back, event);
            events += 1;
        }
        assert_eq!(back, input, "{text}");
    }
    assert!(events > 30_000);
}
