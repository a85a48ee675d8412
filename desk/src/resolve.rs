//! `take all` and `take shuffled` become single takes. The desk proposes places, runs
//! the proved program on what stands so far with the proposals behind it, and keeps
//! those that were accepted, up to the moment at which nothing is in flight. A refused
//! take changes nothing, so proposals too many do no harm, and one run settles many lines.

use crate::answer::{BenchLine, Transcript};
use crate::bytes;
use crate::failure::Failure;
use crate::output::Progress;
use crate::proved::Bench;
use crate::refusal::NO_SUCH_COPY;
use crate::shuffle::Shuffle;
use crate::stand::{Event, Lined, Order, Stand, Until};

/// Why a stand's orders don't become events.
#[derive(Debug, PartialEq)]
pub enum Unresolved {
    /// The description is refused with this number.
    Refused(u8),
    /// The event of this line no longer fits into one input.
    TooLong {
        line: usize,
        before: usize,
    },
    Failed(Failure),
}

impl From<Failure> for Unresolved {
    fn from(failure: Failure) -> Self {
        Unresolved::Failed(failure)
    }
}

/// No input holds more takes than this.
const MOST_TAKES: usize = bytes::MOST / 5;

/// When one copy is left, about every ninth place that is drawn is its own; mostly there
/// are more.
const DRAWS: usize = 6;

pub type Events = Vec<Lined<Event>>;

/// All events of the stand, in order, each with its line.
pub fn events(stand: &Stand, bench: &impl Bench) -> Result<Events, Unresolved> {
    let mut settled = Settled::new(stand);
    let mut progress = Progress::new();
    while settled.order < stand.orders.len() {
        let trial = settled.trial();
        let Some(first) = trial.first() else {
            let (line, before) = (stand.orders[settled.order].line, settled.events.len());
            return Err(Unresolved::TooLong { line, before });
        };
        progress.show(&format!(
            "line {}: {} events so far, trying {} more",
            stand.orders[first.order].line,
            settled.events.len(),
            trial.len()
        ));
        let lines = settled.lines(&trial, bench)?;
        settled.settle(&trial, &lines);
    }
    Ok(settled.events)
}

/// An event that is tried, and the order it belongs to.
struct Tried {
    event: Event,
    order: usize,
    /// Whether it is one of an order's proposals.
    proposed: bool,
}

struct Settled<'a> {
    stand: &'a Stand,
    /// The events of all orders before `order`, and of `order` itself so far.
    events: Events,
    order: usize,
    /// How many of `order`'s proposals have been tried.
    proposed: usize,
    /// How many takes the next orders are thought to need: a guess, which only costs time.
    guess: usize,
    least_guess: usize,
    input: Vec<u8>,
}

impl<'a> Settled<'a> {
    /// A flood sends at most once from each port, and so twice on each cable.
    fn new(stand: &'a Stand) -> Self {
        let guess = 2 * stand.cables.len() + 2;
        let input = bytes::description(stand).bytes;
        let events = Vec::new();
        Settled { stand, events, order: 0, proposed: 0, guess, least_guess: guess, input }
    }

    /// The next events to try, as many as one input holds.
    fn trial(&self) -> Vec<Tried> {
        let mut room = bytes::MOST.saturating_sub(self.input.len());
        let mut trial = Vec::new();
        for order in self.order..self.stand.orders.len() {
            let (events, proposed) = match self.stand.orders[order].what {
                Order::Once(event) => (vec![event], false),
                Order::Takes(until) => (self.proposals(until, order), true),
            };
            for event in events {
                let Some(left) = room.checked_sub(bytes::size(event)) else { return trial };
                room = left;
                trial.push(Tried { event, order, proposed });
            }
        }
        trial
    }

    fn proposals(&self, until: Until, order: usize) -> Vec<Event> {
        let tried = if order == self.order { self.proposed } else { 0 };
        let take = |place| Event::Take { place };
        match until {
            Until::FirstCome => vec![take(0); self.guess],
            Until::Shuffled { seed } => {
                Shuffle::new(seed).skip(tried).take(DRAWS * self.guess).map(take).collect()
            }
        }
    }

    /// What the bench says of the tried events; nothing is asked if none is a proposal.
    fn lines(&self, trial: &[Tried], bench: &impl Bench) -> Result<Vec<BenchLine>, Unresolved> {
        if trial.iter().all(|tried| !tried.proposed) {
            return Ok(Vec::new());
        }
        let mut input = self.input.clone();
        for tried in trial {
            bytes::put_event(&mut input, tried.event);
        }
        match bench.judge(&input)? {
            Transcript::Refused(number) => Err(Unresolved::Refused(number)),
            Transcript::Lines { mut lines, .. }
                if lines.len() == self.events.len() + trial.len() =>
            {
                Ok(lines.split_off(self.events.len()))
            }
            Transcript::Lines { .. } => {
                let why = "the bench program left out events\n".to_string();
                Err(Failure::Machine(why).into())
            }
        }
    }

    /// Keeps the tried events up to the first order that needs more proposals.
    fn settle(&mut self, trial: &[Tried], lines: &[BenchLine]) {
        for (at, tried) in trial.iter().enumerate() {
            if tried.order < self.order {
                continue;
            }
            if !tried.proposed {
                self.keep(tried);
                self.next();
                continue;
            }
            self.proposed += 1;
            if lines[at].refusal != NO_SUCH_COPY {
                self.keep(tried);
            }
            if lines[at].in_flight == 0 {
                // The next ones may well need as much.
                self.guess = self.least_guess.max(self.needed()).max(self.guess * 7 / 8);
                self.next();
            } else if trial.get(at + 1).is_none_or(|next| next.order > tried.order) {
                self.guess = (2 * self.guess).min(MOST_TAKES);
                return;
            }
        }
    }

    /// How many takes, by the guess's measure, the order has needed.
    fn needed(&self) -> usize {
        match self.stand.orders[self.order].what {
            Order::Takes(Until::Shuffled { .. }) => self.proposed.div_ceil(DRAWS),
            _ => self.proposed,
        }
    }

    fn keep(&mut self, tried: &Tried) {
        let line = self.stand.orders[tried.order].line;
        self.events.push(Lined { line, what: tried.event });
        bytes::put_event(&mut self.input, tried.event);
    }

    fn next(&mut self) {
        self.order += 1;
        self.proposed = 0;
    }
}

#[cfg(test)]
mod tests {
    use std::cell::Cell;

    use super::*;
    use crate::numbering;
    use crate::stand::Address;

    /// Counts copies and nothing else: a send places five, every third take places two more.
    #[derive(Default)]
    struct Counting {
        starts: Cell<usize>,
    }

    impl Bench for Counting {
        fn judge(&self, input: &[u8]) -> Result<Transcript, Failure> {
            self.starts.set(self.starts.get() + 1);
            assert!(input.len() <= bytes::MOST);
            let (mut in_flight, mut taken, mut lines) = (0, 0, Vec::new());
            for event in bytes::records(input).expect("the desk's own records").events {
                let mut refusal = 0;
                match event {
                    Event::Send { .. } => in_flight += 5,
                    Event::Take { place } if usize::from(place) < in_flight => {
                        taken += 1;
                        in_flight = in_flight - 1 + if taken % 3 == 0 { 2 } else { 0 };
                    }
                    Event::Take { .. } => refusal = NO_SUCH_COPY,
                    Event::Set { .. } => in_flight = 0,
                }
                lines.push(BenchLine { text: String::new(), refusal, in_flight });
            }
            Ok(Transcript::Lines { lines, stopped: false })
        }
    }

    fn resolved(orders: &str) -> (Result<Events, Unresolved>, usize) {
        let parts = "head S ports 2\ngauge A on S port 0 address 02:00:00:00:00:01\n";
        let stand = numbering::stand(format!("{parts}{orders}").as_bytes()).expect("a stand");
        let bench = Counting::default();
        (events(&stand, &bench), bench.starts.get())
    }

    fn places(events: &Events, line: usize) -> Vec<u16> {
        let of_line = events.iter().filter(|event| event.line == line);
        let place = |event: &Lined<Event>| match event.what {
            Event::Take { place } => Some(place),
            _ => None,
        };
        of_line.filter_map(place).collect()
    }

    #[test]
    fn all_is_taken_first_come_first_served_until_nothing_is_in_flight() {
        let (events, starts) =
            resolved("send A to A\ntake all\ntake all\nsend A to A\ntake 3\ntake all\n");
        let events = events.expect("resolved");
        assert_eq!(places(&events, 4), [0; 11]);
        assert_eq!(places(&events, 5), []);
        assert_eq!(places(&events, 7), [3]);
        assert_eq!(places(&events, 8).len(), 14);
        assert!(starts < 12, "{starts} starts");
    }

    #[test]
    fn shuffled_takes_are_the_drawn_places_that_exist() {
        let events = resolved("send A to A\ntake shuffled 5\n").0.expect("resolved");
        let places = places(&events, 4);
        assert_eq!(places.len(), 11);
        assert!(places.iter().any(|&place| place > 0));
        let mut drawn = Shuffle::new(5);
        assert!(places.iter().all(|place| drawn.any(|next| next == *place)));
    }

    #[test]
    fn without_takes_to_find_nothing_is_run() {
        let (events, starts) = resolved("send A to everyone\ntake 9\nset cable 3 to 2\n");
        let events = events.expect("resolved");
        let to = Address::EVERYONE;
        let first = Lined { line: 3, what: Event::Send { gauge: 0, to } };
        assert_eq!((events.len(), events[0], starts), (3, first, 0));
    }

    #[test]
    fn many_lines_are_settled_by_few_starts() {
        let (events, starts) = resolved(&"send A to A\ntake all\n".repeat(600));
        let last = events.expect("resolved").last().map(|event| event.line);
        assert_eq!(last, Some(1202));
        assert!(starts < 60, "{starts} starts");
    }

    #[test]
    fn more_than_one_input_holds_is_told_with_its_line() {
        let before = |events: Result<Events, Unresolved>| match events {
            Err(Unresolved::TooLong { line, before }) => (line, before),
            Err(other) => panic!("{other:?}"),
            Ok(events) => panic!("{} events fit", events.len()),
        };
        let (line, count) = before(resolved(&"take 0\n".repeat(13_000)).0);
        assert_eq!((line, count), (11_995 + 3, 11_995));
        let filled = "take 0\n".repeat(11_985) + "send A to A\ntake shuffled 3\n";
        let (line, count) = before(resolved(&filled).0);
        assert_eq!((line, count), (11_985 + 4, 11_994));
        let (line, _) = before(resolved(&"send A to A\ntake all\n".repeat(6_000)).0);
        assert!(line > 1_000 && line < 12_000, "{line}");
    }
}
