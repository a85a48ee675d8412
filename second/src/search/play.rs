//! A run in the making, and a run as it is kept: a network, events, and which
//! of them is A's frame.

use second::bench::{Bench, Counters, Event, Report};
use second::demand3::{Claim, Premise, Watch};
use second::description::{self, Network, INPUT_MAX};
use second::frame::address_bytes;
use second::refusal::Refusal;

#[derive(Clone)]
pub struct Play {
    pub bench: Box<Bench>,
    counters: Counters,
    events: Vec<Event>,
    /// Set when A sends, with A and the place of its frame among the events.
    watched: Option<(Watch, u8, usize)>,
}

impl Play {
    pub fn fresh(network: &Network) -> Play {
        let bench = Bench::fresh(network).expect("a network that the writer accepts");
        Play { bench, counters: Counters::default(), events: Vec::new(), watched: None }
    }

    pub fn event(&mut self, event: Event) -> Result<Report, Refusal> {
        let answer = self.bench.event_in_shape(&mut self.counters, event);
        self.events.push(event);
        if let Some((watch, ..)) = &mut self.watched {
            watch.see(&self.bench, event, &answer);
        }
        answer
    }

    /// The frame that demand 3 is about.
    pub fn begin(&mut self, host: u8, destination: u64) {
        self.watched = Some((Watch::start(&self.bench, host), host, self.events.len()));
        let _ = self.send(host, destination);
    }

    pub fn send(&mut self, host: u8, destination: u64) -> Result<Report, Refusal> {
        self.event(Event::Host { host, destination: address_bytes(destination) })
    }

    /// Plays an event unless it breaks a premise other than the dropped one.
    pub fn event_within(&mut self, event: Event, dropped: Option<Premise>) -> bool {
        let before = (self.bench.clone(), self.counters, self.watched.clone());
        let _ = self.event(event);
        if self.keeps_all_but(dropped) {
            return true;
        }
        (self.bench, self.counters, self.watched) = before;
        self.events.pop();
        false
    }

    pub fn watch(&self) -> &Watch {
        &self.watched.as_ref().expect("A has sent").0
    }

    pub fn keeps_all_but(&self, dropped: Option<Premise>) -> bool {
        self.watch().broken().iter().all(|premise| Some(*premise) == dropped)
    }

    pub fn is_over(&self) -> bool {
        self.watch().is_over(&self.bench)
    }

    pub fn fails(&self) -> Option<Claim> {
        self.watch().fails(&self.bench)
    }

    /// A claim fails, and no premise but the dropped one is broken.
    pub fn is_counterexample(&self, dropped: Option<Premise>) -> bool {
        self.watch().broken() == dropped.as_slice() && self.fails().is_some()
    }

    /// The last copy was taken, all premises kept, and a record makes a detour.
    pub fn ends_with_a_detour(&self) -> bool {
        self.watch().broken().is_empty()
            && self.is_over()
            && self.watch().has_detour(&self.bench)
    }

    pub fn events(&self) -> usize {
        self.events.len()
    }

    pub fn run(&self) -> Run {
        let (_, host, frame) = self.watched.as_ref().expect("A has sent");
        let network = self.bench.network.clone();
        Run { network, events: self.events.clone(), host: *host, frame: *frame }
    }
}

#[derive(Clone)]
pub struct Run {
    pub network: Network,
    pub events: Vec<Event>,
    pub host: u8,
    pub frame: usize,
}

impl Run {
    /// Plays it again up to the first moment from A's frame on at which
    /// something holds, and cuts off the events behind it. Nothing if it never
    /// holds.
    pub fn until(&mut self, holds: impl Fn(&Play) -> bool) -> Option<Play> {
        let mut play = Play::fresh(&self.network);
        for place in 0..self.events.len() {
            if place == self.frame {
                let watch = Watch::start(&play.bench, self.host);
                play.watched = Some((watch, self.host, place));
            }
            let _ = play.event(self.events[place]);
            if place >= self.frame && holds(&play) {
                self.events.truncate(place + 1);
                return Some(play);
            }
        }
        None
    }

    /// An input for the bench program, if it isn't too large for that.
    pub fn input(&self) -> Option<Vec<u8>> {
        let mut input = vec![0; INPUT_MAX];
        let length = description::write(&self.network, &mut input).ok()?;
        input.truncate(length);
        input.extend(self.events.iter().flat_map(|event| event.record()));
        (input.len() <= INPUT_MAX).then_some(input)
    }
}
