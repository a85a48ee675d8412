//! The judge of demand 3 notices what is planted: each claim that fails and
//! each premise that is broken.

use second::addresses::UNKNOWN;
use second::bench::{Bench, CopyInFlight, Counters, Event, Report, COPIES_MAX, FILTER_BYTES};
use second::demand3::{names, Claim, Premise, Watch};
use second::filter::{self, Triple};
use second::frame::{address_bytes, Header};
use second::plan::{address, cabled};
use second::table::Slot;

const RING: [(usize, usize); 3] = [(0, 1), (1, 2), (2, 0)];
const A_SENDS: Event = Event::Host { host: 0, destination: [2, 0, 0, 0, 0xFF, 0xFF] };

/// A run under watch; A is host 0, on switch 0 with host 1.
struct Run {
    bench: Box<Bench>,
    counters: Counters,
    watch: Watch,
}

impl Run {
    fn start(bench: Box<Bench>) -> Run {
        let watch = Watch::start(&bench, 0);
        Run { bench, counters: Counters::default(), watch }
    }

    fn ring() -> Run {
        Run::start(fresh_ring())
    }

    fn event(&mut self, event: Event) -> Report {
        let answer = self.bench.event_in_shape(&mut self.counters, event);
        self.watch.see(&self.bench, event, &answer);
        answer.unwrap()
    }

    /// A's frame, and every copy in the list's order.
    fn flood(&mut self) {
        self.event(A_SENDS);
        self.take_all();
    }

    fn take_all(&mut self) {
        while self.bench.copy_count > 0 {
            self.event(Event::Take { place: 0 });
        }
    }

    fn fails(&self) -> Option<Claim> {
        self.watch.fails(&self.bench)
    }

    /// The slot of A in a switch's table.
    fn slot(&mut self, switch: usize) -> &mut Slot {
        let slots = &mut self.bench.seats[switch].switch.table.slots;
        slots.iter_mut().find(|slot| slot.address == address(0)).unwrap()
    }
}

fn fresh_ring() -> Box<Bench> {
    Bench::fresh(&cabled(3, 3, &RING)).unwrap()
}

fn flooded_ring() -> Run {
    let mut run = Run::ring();
    run.flood();
    assert_eq!((run.fails(), run.watch.broken()), (None, &[][..]));
    run
}

/// Hands a watch the events of a flood with some reports changed.
fn with_reports(change: impl Fn(&mut Report)) -> Option<Claim> {
    let mut bench = fresh_ring();
    let mut counters = Counters::default();
    let mut watch = Watch::start(&bench, 0);
    let mut event = A_SENDS;
    loop {
        let mut report = bench.event(&mut counters, event).unwrap();
        change(&mut report);
        watch.see(&bench, event, &Ok(report));
        if bench.copy_count == 0 {
            return watch.fails(&bench);
        }
        event = Event::Take { place: 0 };
    }
}

#[test]
fn a_record_on_a_port_without_a_cable_does_not_lead_home() {
    let mut run = flooded_ring();
    run.slot(1).port = 7;
    assert_eq!(run.fails(), Some(Claim::LeadsHome));
}

#[test]
fn a_record_on_the_port_of_another_host_does_not_lead_home() {
    let mut run = flooded_ring();
    run.slot(0).port = 1;
    assert_eq!(run.fails(), Some(Claim::LeadsHome));
}

#[test]
fn records_in_a_circle_do_not_lead_home() {
    let mut run = flooded_ring();
    // Switch 1 has its cables to 0 and 2 on ports 1 and 2, switch 2 to 1 and 0.
    (run.slot(1).port, run.slot(2).port) = (2, 1);
    assert_eq!(run.fails(), Some(Claim::LeadsHome));
}

#[test]
fn a_record_is_missed_after_the_last_copy_alone() {
    let mut run = Run::ring();
    run.event(A_SENDS);
    run.event(Event::Take { place: 0 });
    *run.slot(1) = Slot::EMPTY;
    assert_eq!(run.fails(), None);
    let mut run = flooded_ring();
    *run.slot(1) = Slot::EMPTY;
    assert_eq!(run.fails(), Some(Claim::AllRecord));
}

#[test]
fn a_switch_that_is_not_joined_needs_no_record() {
    let mut bench = Bench::fresh(&cabled(3, 3, &RING[..2])).unwrap();
    bench.event(&mut Counters::default(), Event::Link { link: 1, state: 0 }).unwrap();
    let mut run = Run::start(bench);
    run.flood();
    assert!(run.bench.seats[2].switch.table.lookup(address(0)).is_none());
    assert_eq!((run.fails(), run.watch.broken()), (None, &[][..]));
}

#[test]
fn a_vanished_copy_is_missed() {
    let mut run = Run::start(Bench::fresh(&cabled(2, 2, &[(0, 1)])).unwrap());
    run.event(A_SENDS);
    assert_eq!(run.fails(), None);
    run.bench.copy_count = 0;
    assert_eq!(run.fails(), Some(Claim::AllRecord));
}

#[test]
fn hosts_are_counted() {
    assert_eq!(with_reports(|_| ()), None);
    assert_eq!(with_reports(|report| report.hosts &= !8), Some(Claim::OneCopyEach));
    assert_eq!(with_reports(|report| report.hosts |= 4), Some(Claim::OneCopyEach));
    // A itself may receive what it likes.
    assert_eq!(with_reports(|report| report.hosts |= 1), None);
}

#[test]
fn a_port_that_sends_twice_is_seen() {
    // Limit 3 would stop the copy that has come around.
    let mut run = Run::start(Bench::fresh(&cabled(3, 4, &RING)).unwrap());
    run.event(A_SENDS);
    run.bench.seats[0].filter = [0; FILTER_BYTES];
    // Once around the ring: the youngest copy each time.
    for _ in 0..3 {
        assert_eq!(run.fails(), None);
        run.event(Event::Take { place: run.bench.copy_count - 1 });
    }
    assert_eq!(run.fails(), Some(Claim::SentOnce));
    assert_eq!(run.watch.broken(), [Premise::NothingOverwritten]);
}

#[test]
fn a_record_may_be_overwritten_after_the_last_copy() {
    let mut run = flooded_ring();
    run.bench.seats[0].filter = [0; FILTER_BYTES];
    run.event(Event::Link { link: 0, state: 1 });
    assert_eq!((run.fails(), run.watch.broken()), (None, &[][..]));
}

#[test]
fn each_way_to_name_a_at_the_start_is_seen() {
    let a = address(0);
    assert_eq!(names(&fresh_ring(), a), []);
    let mut bench = fresh_ring();
    assert!(!bench.seats[2].switch.table.learn(a, 1, 2));
    assert_eq!(names(&bench, a), [Premise::TableUnnamed]);
    let mut bench = fresh_ring();
    assert!(!filter::record(
        &mut bench.seats[2].filter,
        9,
        Triple { source: a, nonce: 7, l: false }
    ));
    assert_eq!(names(&bench, a), [Premise::FilterUnnamed]);
    let header = Header { l: true, f: true, hc: 1, nonce: 7 };
    for (source, destination, premise) in
        [(a, address(1), Premise::NoCopyFromA), (address(1), a, Premise::NoCopyToA)]
    {
        let mut bench = fresh_ring();
        bench.copies[0] = CopyInFlight { source, destination, header, ..Default::default() };
        bench.copy_count = 1;
        assert_eq!(names(&bench, a), [premise]);
        assert_eq!(Run::start(bench).watch.broken(), [premise]);
    }
}

#[test]
fn limits_are_compared_with_the_number_of_switches() {
    let broken = |limit| {
        let bench = Bench::fresh(&cabled(3, limit, &RING)).unwrap();
        Run::start(bench).watch.broken().to_vec()
    };
    assert_eq!(broken(2), [Premise::EnoughHops]);
    assert_eq!(broken(3), []);
    // 0 stands for the default.
    assert_eq!(broken(0), []);
}

#[test]
fn events_that_break_a_premise_are_seen() {
    let to_a = address_bytes(address(0));
    let cases = [
        (A_SENDS, Premise::SilentAfter),
        (Event::Host { host: 2, destination: to_a }, Premise::NobodySendsToA),
        (Event::Link { link: 1, state: 0 }, Premise::NoCablePulled),
    ];
    for (event, premise) in cases {
        let mut run = Run::ring();
        run.event(A_SENDS);
        run.event(event);
        assert_eq!(run.watch.broken(), [premise]);
    }
    let mut run = Run::ring();
    run.event(Event::Host { host: 0, destination: to_a });
    assert_eq!(run.watch.broken(), [Premise::NotToItself]);
}

#[test]
fn a_plugged_cable_is_seen() {
    let mut bench = fresh_ring();
    bench.event(&mut Counters::default(), Event::Link { link: 1, state: 0 }).unwrap();
    let mut run = Run::start(bench);
    run.event(A_SENDS);
    run.event(Event::Link { link: 1, state: 1 });
    assert_eq!(run.watch.broken(), [Premise::NoCablePlugged]);
}

#[test]
fn a_lost_copy_is_seen() {
    let mut bench = fresh_ring();
    let header = Header { l: true, f: true, hc: 1, nonce: 7 };
    let copy =
        CopyInFlight { source: address(2), destination: UNKNOWN, header, ..Default::default() };
    bench.copies = [copy; COPIES_MAX];
    bench.copy_count = COPIES_MAX as u16 - 1;
    let mut run = Run::start(bench);
    run.event(A_SENDS);
    assert_eq!(run.watch.broken(), [Premise::NothingLost]);
}

#[test]
fn what_is_allowed_breaks_nothing() {
    let mut run = Run::ring();
    run.event(A_SENDS);
    run.event(Event::Link { link: 1, state: 1 });
    run.event(Event::Host { host: 3, destination: address_bytes(address(2)) });
    for refused in [
        Event::Host { host: 0, destination: [0; 6] },
        Event::Link { link: 1, state: 2 },
        Event::Take { place: 500 },
    ] {
        let answer = run.bench.event_in_shape(&mut run.counters, refused);
        assert!(answer.is_err());
        run.watch.see(&run.bench, refused, &answer);
        assert_eq!(run.fails(), None);
    }
    run.take_all();
    assert_eq!((run.fails(), run.watch.broken()), (None, &[][..]));
}
