//! Events keep a bench in shape, so that leaving out the test of it changes no
//! answer.

use second::bench::{Bench, Counters};
use second::random::Random;
use second::stands;
use second::traffic::{self, Habit};

#[test]
fn events_answer_the_same_without_the_test() {
    for seed in 0..60 {
        let r = &mut Random::new(seed, 0);
        let network = stands::busy(r, &mut Vec::new());
        let mut tested = Bench::fresh(&network).unwrap();
        let mut untested = tested.clone();
        let (mut counters, mut same) = (Counters::default(), Counters::default());
        let habit = Habit::new(r);
        for _ in 0..300 {
            let event = traffic::event(r, &tested, &habit);
            let answer = tested.event(&mut counters, event);
            assert_eq!(answer, untested.event_in_shape(&mut same, event));
        }
        assert_eq!((&tested, counters), (&untested, same));
    }
}
