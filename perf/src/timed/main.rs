//! Times the proved engine against the hand-written program, on the same inputs in one run, and
//! prints nanoseconds and ratios. Each row is first run once on both sides and every result
//! compared; a difference ends the run.
mod clock;
mod engine;
mod inputs;

use clock::thread_time;
use engine::word_of;
use inputs::{Random, Run, Steps, FRAMES};
use perf::bench::{Answer, Bench, Counters, Event};
use perf::stand::Stand;
use perf::switch::Switch;
use std::cell::RefCell;
use std::hint::black_box;
use std::time::{Duration, Instant};

const LONGEST_FRAME: usize = 1520;
const LONGEST_TRANSCRIPT: usize = 312_008;

/// Rounds go on for so long, and for so many at least.
const TIME: Duration = Duration::from_millis(200);
const ROUNDS: usize = 60;

/// The two sides take turns, and the least time of each counts: what else the machine does only adds.
fn race(
    mut hand: impl FnMut() -> Duration,
    mut proved: impl FnMut() -> Duration,
) -> [Duration; 2] {
    let mut least = [Duration::MAX; 2];
    let start = Instant::now();
    let mut rounds = 0;
    while rounds < ROUNDS || start.elapsed() < TIME {
        least[0] = least[0].min(hand());
        least[1] = least[1].min(proved());
        rounds += 1;
    }
    least
}

fn print_row(name: &str, least: [Duration; 2], calls: usize) {
    let [hand, proved] = least.map(|d| d.as_nanos() as f64 / calls as f64);
    println!("| {name} | {hand:.0} | {proved:.0} | {:.2} |", proved / hand);
}

fn print_head(title: &str) {
    println!("\n| {title} | by hand, ns | proved, ns | ratio |\n|---|---|---|---|");
}

fn hand_step(s: &mut Switch, f: &mut [u8], port: u8, frame: &[u8], out: &mut [u8]) -> u64 {
    word_of(&s.step(f, port, frame, out))
}

fn hand_inner_step(
    s: &mut Switch,
    f: &mut [u8],
    port: u8,
    frame: &[u8],
    out: &mut [u8],
) -> u64 {
    word_of(&s.inner_step(f, port, frame, out))
}

/// Steps on each frame by both; answers, switches, filters and outputs must be the same. The last
/// verdict's letter.
fn compare_steps(steps: &Steps, hand: engine::Step, proved: engine::Step, room: usize) -> u8 {
    let (mut a, mut b) = (steps.switch, steps.switch);
    let (mut f, mut g) = (steps.filter.clone(), steps.filter.clone());
    let (mut out, mut tuo) = (vec![7; room], vec![7; room]);
    let mut last = 0;
    for frame in &steps.frames {
        let x = hand(&mut a, &mut f, steps.port, frame, &mut out);
        let y = proved(&mut b, &mut g, steps.port, frame, &mut tuo);
        assert_eq!(x, y, "answers differ");
        assert_eq!(a, b, "switches differ");
        assert!(f == g && out == tuo, "filters or outputs differ");
        last = x as u8;
    }
    last
}

/// Times steps from the same switch on, frame after frame.
fn time_steps(
    name: &str,
    verdict: u8,
    steps: &Steps,
    hand: engine::Step,
    proved: engine::Step,
) {
    let letter = compare_steps(steps, hand, proved, LONGEST_FRAME);
    assert_eq!(letter, verdict, "another verdict than the row's");
    let timed = |step: engine::Step| {
        let mut out = vec![0; LONGEST_FRAME];
        move || {
            let mut switch = steps.switch;
            let mut filter = steps.filter.clone();
            let start = Instant::now();
            for frame in &steps.frames {
                black_box(step(&mut switch, &mut filter, steps.port, frame, &mut out));
            }
            start.elapsed()
        }
    };
    print_row(name, race(timed(hand), timed(proved)), steps.frames.len());
}

fn time_both(name: &str, verdict: u8, steps: &Steps) {
    time_steps(&format!("public, {name}"), verdict, steps, hand_step, engine::step);
    time_steps(&format!("inner, {name}"), verdict, steps, hand_inner_step, engine::inner_step);
}

/// The proved step by value, the switch handed from step to step; by hand it is changed in place.
fn time_by_value(name: &str, verdict: u8, steps: &Steps) {
    let frame = &steps.frames[0];
    let (mut a, mut b) = (steps.switch, steps.switch);
    let (mut f, mut g) = (steps.filter.clone(), steps.filter.clone());
    let mut out = vec![0; LONGEST_FRAME];
    let mut word = 0;
    for _ in 0..FRAMES {
        word = hand_step(&mut a, &mut f, steps.port, frame, &mut out);
    }
    let same = engine::value_steps(FRAMES, &mut b, &mut g, steps.port, frame, &mut out);
    assert!(word == same && a == b && f == g, "steps by value differ");
    assert_eq!(word as u8, verdict, "another verdict than the row's");
    let mut out = vec![0; LONGEST_FRAME];
    let mut tuo = out.clone();
    let least = race(
        || {
            let (mut switch, mut filter) = (steps.switch, steps.filter.clone());
            let start = Instant::now();
            for _ in 0..FRAMES {
                black_box(switch.step(&mut filter, steps.port, frame, &mut out));
            }
            start.elapsed()
        },
        || {
            let (mut switch, mut filter) = (steps.switch, steps.filter.clone());
            let start = Instant::now();
            black_box(engine::value_steps(
                FRAMES,
                &mut switch,
                &mut filter,
                steps.port,
                frame,
                &mut tuo,
            ));
            start.elapsed()
        },
    );
    print_row(name, least, FRAMES);
}

fn time_test(name: &str, entries: usize, cells: usize) {
    let (switch, filter) = inputs::switch_with(&mut Random(77), entries, cells);
    assert_eq!(switch.test(&filter) as u64, engine::test(&switch, &filter), "tests differ");
    let timed = |test: fn(&Switch, &[u8]) -> u64| {
        let (switch, filter) = (&switch, &filter);
        move || {
            let start = Instant::now();
            for _ in 0..FRAMES {
                black_box(test(black_box(switch), black_box(filter)));
            }
            start.elapsed()
        }
    };
    let by_hand = |s: &Switch, f: &[u8]| s.test(f) as u64;
    print_row(name, race(timed(by_hand), timed(engine::test)), FRAMES);
}

/// Both sides on switches and frames of any kind, refusals too.
fn compare_any(count: usize) {
    let mut random = Random(0xA11);
    let mut seen = [0usize; 256];
    for _ in 0..count {
        let steps = inputs::any_step(&mut random);
        let room = if random.below(20) == 0 { 1000 } else { LONGEST_FRAME };
        seen[compare_steps(&steps, hand_step, engine::step, room) as usize] += 1;
        assert_eq!(
            steps.switch.test(&steps.filter) as u64,
            engine::test(&steps.switch, &steps.filter),
            "tests differ"
        );
    }
    let told: Vec<String> = (0..256)
        .filter(|&i| seen[i] > 0)
        .map(|i| {
            if i < 10 {
                format!("{i}: {}", seen[i])
            } else {
                format!("{}: {}", i as u8 as char, seen[i])
            }
        })
        .collect();
    println!("{count} steps of any kind agree ({}).", told.join(", "));
}

/// An event's answer as the engine's one word.
fn event_word(answer: &Answer, flying: usize) -> u64 {
    let low = match answer {
        Answer::Refused(n) => *n as u64,
        Answer::Stepped(d) => d.report.verdict as u64 | (d.received as u64) << 8,
        Answer::Linked(cut) => b'K' as u64 | (*cut as u64) << 8,
    };
    low | (flying as u64) << 48
}

fn hand_events(input: &[u8], out: &mut [u64]) -> usize {
    let Ok((stand, mut at)) = Stand::read(input) else { return 0 };
    let mut bench = Bench::fresh(stand);
    let mut counters = Counters::default();
    let mut count = 0;
    while count < out.len() && at < input.len() {
        let Some((event, size)) = Event::read(input, at) else { break };
        let answer = bench.event(&event, &mut counters);
        out[count] = event_word(&answer, bench.flying);
        count += 1;
        at += size;
    }
    count
}

/// Times both on an input and on its start alone, and prints the events between.
fn race_on(name: &str, run: &Run, hand: impl Fn(&[u8]), proved: impl Fn(&[u8])) {
    let timed = |input: &[u8], work: &dyn Fn(&[u8])| {
        let start = thread_time();
        work(input);
        thread_time() - start
    };
    let start = &run.input[..run.start];
    let all = race(|| timed(&run.input, &hand), || timed(&run.input, &proved));
    let part = race(|| timed(start, &hand), || timed(start, &proved));
    let events = run.events - run.start_events;
    let least = [all[0].saturating_sub(part[0]), all[1].saturating_sub(part[1])];
    print_row(&format!("{name}, {events} events, {:.0} copies", run.flying), least, events);
}

/// The public event, 28 tested at each.
fn time_events(name: &str, run: &Run) {
    let (mut a, mut b) = (vec![0; run.events], vec![0; run.events]);
    assert_eq!(hand_events(&run.input, &mut a), run.events, "events are missing");
    assert_eq!(engine::events(&run.input, &mut b), run.events, "events are missing");
    assert_eq!(a, b, "events differ");
    let (a, b) = (RefCell::new(a), RefCell::new(b));
    race_on(
        name,
        run,
        |input| _ = black_box(hand_events(input, &mut a.borrow_mut())),
        |input| _ = black_box(engine::events(input, &mut b.borrow_mut())),
    );
}

fn time_transcript(name: &str, run: &Run) {
    let mut a = Vec::with_capacity(LONGEST_TRANSCRIPT);
    let mut b = vec![0; LONGEST_TRANSCRIPT];
    perf::transcript::transcript(&run.input, &mut a);
    let wrote = engine::transcript(&run.input, &mut b);
    assert!(a == b[..wrote], "transcripts differ");
    let (a, b) = (RefCell::new(a), RefCell::new(b));
    race_on(
        name,
        run,
        |input| perf::transcript::transcript(input, &mut a.borrow_mut()),
        |input| _ = black_box(engine::transcript(input, &mut b.borrow_mut())),
    );
}

fn verdicts() {
    print_head("a step, 32 entries, 64 cells");
    for len in [66, 1520] {
        for verdict in [b'U', b'F', b'D'] {
            let name = format!("{len} bytes, {}", verdict as char);
            time_both(&name, verdict, &inputs::tagged(verdict, len, 32, 64));
        }
    }
    for len in [60, 1514] {
        for verdict in [b'U', b'F', b'N'] {
            let name = format!("host frame of {len}, {}", verdict as char);
            time_both(&name, verdict, &inputs::hosts(verdict, len, 32, 64));
        }
    }
    print_head("a public step, the switch by value");
    for verdict in [b'U', b'D'] {
        let name = format!("66 bytes, {}", verdict as char);
        time_by_value(&name, verdict, &inputs::tagged(verdict, 66, 32, 64));
    }
    time_by_value("host frame of 60, N", b'N', &inputs::hosts(b'N', 60, 32, 64));
}

fn growth_of_steps() {
    print_head("the test of a switch alone");
    for entries in [0, 16, 32, 60] {
        time_test(&format!("{entries} entries, 64 cells"), entries, 64);
    }
    for cells in [16, 64, 256] {
        time_test(&format!("32 entries, {cells} cells"), 32, cells);
    }
    print_head("a step on 66 bytes, F");
    for entries in [0, 16, 32, 60] {
        let name = format!("{entries} entries, 64 cells");
        time_both(&name, b'F', &inputs::tagged(b'F', 66, entries, 64));
    }
    for cells in [16, 64, 256] {
        let name = format!("32 entries, {cells} cells");
        time_both(&name, b'F', &inputs::tagged(b'F', 66, 32, cells));
    }
}

fn benches() {
    print_head("a public event, tested for shape");
    for copies in [10, 50, 300] {
        time_events("16 switches", &inputs::run_of(16, copies, 500));
    }
    for switches in [2, 8] {
        time_events(&format!("{switches} switches"), &inputs::run_of(switches, 50, 500));
    }
    print_head("an event as in a run, its line included");
    for copies in [10, 50, 300] {
        time_transcript("16 switches", &inputs::run_of(16, copies, 4000));
    }
    for switches in [2, 8] {
        time_transcript(&format!("{switches} switches"), &inputs::run_of(switches, 50, 4000));
    }
    print_head("a whole transcript, an event");
    for copies in [50, 300] {
        let run = inputs::run_of(16, copies, 12_000);
        time_transcript("16 switches", &Run { start: 0, start_events: 0, ..run });
    }
}

fn main() {
    compare_any(50_000);
    verdicts();
    growth_of_steps();
    benches();
}
