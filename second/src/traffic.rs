//! Events from random numbers that suit a bench, so that most of them meet
//! something.

use crate::addresses;
use crate::bench::{Bench, Counters, Event};
use crate::frame::address_bytes;
use crate::random::Random;

/// How the events of a run are chosen.
pub struct Habit {
    /// Weights: a host sends, a copy is taken, a link changes, a bad event.
    weights: [usize; 4],
    taking: Taking,
    /// Percent of frames to a host of the network.
    known: usize,
    /// So many of the hosts talk to each other.
    talking: usize,
}

#[derive(Clone, Copy)]
enum Taking {
    First,
    Last,
    Anywhere,
}

impl Habit {
    pub fn new(r: &mut Random) -> Habit {
        let weights = r.pick(&[
            [10, 60, 2, 0],
            [10, 60, 2, 0],
            [10, 40, 2, 2],
            [10, 40, 0, 0],
            [10, 100, 1, 1],
            [10, 25, 8, 1],
            [10, 30, 12, 0],
            [30, 10, 1, 1],
            [40, 2, 0, 0],
        ]);
        let taking = r.pick(&[Taking::First, Taking::Last, Taking::Anywhere, Taking::Anywhere]);
        Habit { weights, taking, known: r.pick(&[60, 90, 99]), talking: r.pick(&[2, 3, 32]) }
    }
}

/// One event that suits the bench and the habit.
pub fn event(r: &mut Random, bench: &Bench, habit: &Habit) -> Event {
    let [mut send, mut take, mut change, bad] = habit.weights;
    let (hosts, links) = (bench.network.hosts(), bench.network.links());
    let copies = usize::from(bench.copy_count);
    // What can't be is left out, unless nothing else is there.
    if hosts.is_empty() {
        send = 0;
    }
    if copies == 0 {
        take = 0;
    }
    if links.is_empty() {
        change = 0;
    }
    let all = send + take + change + bad;
    let choice = if all == 0 { 0 } else { r.below(all) };
    if all == 0 || choice >= send + take + change {
        return bad_event(r, bench);
    }
    if choice < send {
        return host_event(r, bench, habit);
    }
    if choice < send + take {
        let place = match habit.taking {
            Taking::First => 0,
            Taking::Last => copies - 1,
            Taking::Anywhere => r.below(copies),
        };
        return Event::Take { place: place as u16 };
    }
    let link = r.below(links.len());
    // Mostly a change, and mostly back up again.
    let state = if r.chance(15) { r.below(2) as u8 } else { !bench.up[link] as u8 };
    Event::Link { link: link as u8, state }
}

/// One of those who talk sends to another, to itself now and then.
fn host_event(r: &mut Random, bench: &Bench, habit: &Habit) -> Event {
    let hosts = bench.network.hosts();
    let talking = hosts.len().min(habit.talking);
    let host = r.below(talking);
    let itself = talking == 1 || r.chance(8);
    let other = if itself { host } else { (host + r.between(1, talking - 1)) % talking };
    let destination = if r.chance(habit.known) {
        hosts[other].address
    } else {
        addresses::destination(r).max(1)
    };
    Event::Host { host: host as u8, destination: address_bytes(destination) }
}

/// An event that is refused for its own causes, most times.
pub fn bad_event(r: &mut Random, bench: &Bench) -> Event {
    let (hosts, links) = (bench.network.host_count, bench.network.link_count);
    let address = address_bytes(addresses::destination(r));
    match r.below(8) {
        0 => Event::Host { host: hosts, destination: address },
        1 => Event::Host { host: r.pick(&[32, 33, 255]), destination: [0; 6] },
        2 => {
            Event::Host { host: r.below(usize::from(hosts).max(1)) as u8, destination: [0; 6] }
        }
        3 => Event::Take { place: bench.copy_count },
        4 => Event::Take { place: r.pick(&[511, 512, 513, 65535]) },
        5 => Event::Link { link: links, state: r.pick(&[0, 1, 2]) },
        6 => Event::Link { link: r.pick(&[64, 128, 255]), state: r.pick(&[0, 1]) },
        _ => {
            let link = r.below(usize::from(links).max(1)) as u8;
            Event::Link { link, state: r.pick(&[2, 3, 128, 255]) }
        }
    }
}

/// Plays events on a bench and gives them.
pub fn advance(
    r: &mut Random,
    bench: &mut Bench,
    counters: &mut Counters,
    events: usize,
) -> Vec<Event> {
    let mut habit = Habit::new(r);
    let mut played = Vec::new();
    for _ in 0..events {
        if r.chance(2) {
            habit = Habit::new(r);
        }
        let event = event(r, bench, &habit);
        let _ = bench.event(counters, event);
        played.push(event);
    }
    played
}
