//! Every order of taking on small stands, from the fresh bench: all states
//! that can be reached are looked at once, and the orders that lead through
//! them are counted.

use crate::play::Run;
use second::addresses;
use second::bench::{Bench, Counters, Event};
use second::demand3::{Claim, Premise, Watch};
use second::filter::CELL;
use second::frame::address_bytes;
use second::plan::{address, cabled};
use std::collections::HashMap;

/// A stand by its cables. A is host 0, on switch 0.
pub struct Small {
    pub name: &'static str,
    pub switches: u8,
    pub cables: &'static [(usize, usize)],
    pub limit: u8,
    /// The last host sends too: before A or at any moment after it.
    pub other: Option<When>,
}

#[derive(Clone, Copy, PartialEq, Eq)]
pub enum When {
    Before,
    AnyMoment,
}

#[derive(Default)]
pub struct Explored {
    pub states: usize,
    /// All orders, each from A's frame to the last copy.
    pub orders: u128,
    /// Recorded ports made a detour after the last copy, in some order.
    pub detour: bool,
    /// The first order found in which a claim fails.
    pub fault: Option<(Run, Claim)>,
    /// States behind which a premise is broken; they are not looked at.
    pub left_out: usize,
}

impl Small {
    pub fn explore(&self) -> Explored {
        let network = cabled(self.switches, self.limit, self.cables);
        let other = Event::Host {
            host: network.host_count - 1,
            destination: address_bytes(address(1)),
        };
        let mut bench = Bench::fresh(&network).expect("a network that the writer accepts");
        let mut events = Vec::new();
        if self.other == Some(When::Before) {
            let _ = bench.event_in_shape(&mut Counters::default(), other);
            events.push(other);
        }
        let waiting = (self.other == Some(When::AnyMoment)).then_some(other);
        let state = State { watch: Watch::start(&bench, 0), bench, waiting };
        let frame = events.len();
        let mut search = Search {
            memo: HashMap::new(),
            explored: Explored::default(),
            run: Run { network, events, host: 0, frame },
        };
        let a_sends = Event::Host { host: 0, destination: address_bytes(addresses::UNKNOWN) };
        let orders = search.after(&state, a_sends, waiting);
        Explored { states: search.memo.len(), orders, ..search.explored }
    }
}

struct State {
    bench: Box<Bench>,
    watch: Watch,
    /// The other host's frame, as long as it hasn't been sent.
    waiting: Option<Event>,
}

impl State {
    /// Equal for states that differ in nothing that events or claims look at.
    /// The list's order is no such thing, while there is room.
    fn key(&self) -> Vec<u8> {
        let mut key = self.watch.key();
        key.push(self.waiting.is_some().into());
        for seat in &self.bench.seats[..usize::from(self.bench.network.switch_count)] {
            for slot in seat.switch.table.slots.iter().filter(|slot| slot.address != 0) {
                key.extend([slot.address as u8, slot.port, slot.hops]);
            }
            for (number, cell) in seat.filter.chunks(CELL).enumerate() {
                if *cell != [0; CELL] {
                    key.extend([number as u8, cell[5], cell[8], cell[9]]);
                }
            }
            key.push(0xFF);
        }
        let copies = self.bench.copies().iter();
        let mut copies: Vec<[u8; 4]> = copies
            .map(|copy| [copy.link, copy.end, copy.source as u8, copy.header.to_bytes()[0]])
            .collect();
        copies.sort_unstable();
        key.extend(copies.concat());
        key
    }
}

struct Search {
    /// How many orders lead on from a state.
    memo: HashMap<Vec<u8>, u128>,
    explored: Explored,
    /// What led to the state at hand.
    run: Run,
}

impl Search {
    fn after(&mut self, state: &State, event: Event, waiting: Option<Event>) -> u128 {
        let (mut bench, mut watch) = (state.bench.clone(), state.watch.clone());
        let answer = bench.event_in_shape(&mut Counters::default(), event);
        watch.see(&bench, event, &answer);
        self.run.events.push(event);
        let orders = self.visit(&State { bench, watch, waiting });
        self.run.events.pop();
        orders
    }

    fn visit(&mut self, state: &State) -> u128 {
        let key = state.key();
        if let Some(orders) = self.memo.get(&key) {
            return *orders;
        }
        if let Some(claim) = state.watch.fails(&state.bench) {
            self.explored.fault.get_or_insert((self.run.clone(), claim));
        } else if state.watch.broken().iter().any(|premise| *premise != Premise::EnoughHops) {
            self.explored.left_out += 1;
            return 0;
        }
        let orders = self.orders_from(state);
        self.memo.insert(key, orders);
        orders
    }

    fn orders_from(&mut self, state: &State) -> u128 {
        let mut orders = 0;
        for place in 0..state.bench.copy_count {
            orders += self.after(state, Event::Take { place }, state.waiting);
        }
        if let Some(other) = state.waiting {
            orders += self.after(state, other, None);
        }
        if state.bench.copy_count == 0 {
            self.explored.detour |= state.watch.has_detour(&state.bench);
        }
        if state.bench.copy_count == 0 && state.waiting.is_none() {
            return 1;
        }
        orders
    }
}
