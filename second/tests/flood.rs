//! The fitter's first plug-in, run: one frame of a new host floods a ring or a
//! mesh, copies taken in any order, and demand 3 holds at every moment.

use second::addresses::UNKNOWN;
use second::bench::{Bench, Counters, Event};
use second::demand3::Watch;
use second::frame::address_bytes;
use second::plan::cabled;
use second::random::Random;

fn floods(switches: u8, cables: &[(usize, usize)]) {
    let network = cabled(switches, switches, cables);
    for seed in 1..200 {
        let r = &mut Random::new(seed, 0);
        let mut bench = Bench::fresh(&network).unwrap();
        let mut counters = Counters::default();
        let mut watch = Watch::start(&bench, 0);
        let mut event = Event::Host { host: 0, destination: address_bytes(UNKNOWN) };
        loop {
            let answer = bench.event(&mut counters, event);
            watch.see(&bench, event, &answer);
            assert_eq!(watch.fails(&bench), None);
            if bench.copy_count == 0 {
                break;
            }
            event = Event::Take { place: r.below(bench.copy_count.into()) as u16 };
        }
        assert!(watch.is_over(&bench));
        assert_eq!(watch.broken(), []);
        assert_eq!(counters.placed, counters.taken);
        assert_eq!(counters.delivered, u64::from(network.host_count) - 1);
    }
}

#[test]
fn ring() {
    floods(6, &[(0, 1), (1, 2), (2, 3), (3, 4), (4, 5), (5, 0)]);
}

#[test]
fn mesh() {
    let cables: Vec<_> = (0..5).flat_map(|a| (a + 1..5).map(move |b| (a, b))).collect();
    floods(5, &cables);
}

#[test]
fn parallel_cables_and_a_self_cable() {
    floods(3, &[(0, 1), (0, 1), (1, 1), (1, 2), (2, 0)]);
}
