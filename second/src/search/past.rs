//! Starts that the bench can reach: what has happened before A sends.

use crate::play::Play;
use second::addresses;
use second::bench::{CopyInFlight, Event, COPIES_MAX};
use second::demand3::Premise;
use second::filter::{cell_number, Triple};
use second::frame::address_from;
use second::plan::Plan;
use second::random::Random;
use second::traffic::{self, Habit};
use second::{bench, description};

/// Others have talked, cables have been pulled and plugged; A was silent.
/// Frames to A may have been sent, and have all been taken.
pub fn others(r: &mut Random, play: &mut Play, host: u8) {
    let a = play.bench.network.hosts[usize::from(host)].address;
    let to_a = r.chance(30);
    let mut habit = Habit::new(r);
    for _ in 0..r.pick(&[0, 0, 10, 40, 120, 300]) {
        if r.chance(4) {
            habit = Habit::new(r);
        }
        let event = traffic::event(r, &play.bench, &habit);
        let is_fit = match event {
            Event::Host { host: sender, destination } => {
                sender != host && (to_a || address_from(&destination) != a)
            }
            _ => true,
        };
        if is_fit {
            let _ = play.event(event);
        }
    }
    take_all(r, play, |copy| copy.destination == a);
}

/// Others have sent until there is room for few copies or none.
pub fn crowd(r: &mut Random, play: &mut Play, host: u8) {
    let hosts = usize::from(play.bench.network.host_count);
    let room = r.below(4);
    for _ in 0..2 * COPIES_MAX {
        let sender = r.below(hosts) as u8;
        if usize::from(play.bench.copy_count) + room >= COPIES_MAX {
            return;
        }
        if sender != host {
            let _ = play.send(sender, addresses::UNKNOWN);
        }
    }
}

/// Takes the copies for which something holds, in any order.
pub fn take_all(r: &mut Random, play: &mut Play, fits: impl Fn(&CopyInFlight) -> bool) {
    loop {
        let copies = play.bench.copies().iter().enumerate();
        let places: Vec<usize> =
            copies.filter(|(_, copy)| fits(copy)).map(|(place, _)| place).collect();
        if places.is_empty() {
            return;
        }
        let _ = play.event(Event::Take { place: r.pick(&places) as u16 });
    }
}

/// A stand on which a host can be forgotten: two switches with parallel
/// cables; A and C on the first, D on the second. C's second frame of the stand
/// shares a cell with A's first one there.
pub struct Forgetful {
    pub network: description::Network,
    pub a: u8,
    c: u8,
    d: u8,
}

pub fn forgetful(r: &mut Random) -> Forgetful {
    let salts = [r.word(), r.word()];
    // Low limits: floods that overwrite each other would multiply up to them.
    let hops = r.pick(&[2, 3, 4]);
    let mut plan = Plan::default();
    for salt in salts {
        let mut free: Vec<u8> = (0..8).collect();
        r.shuffle(&mut free);
        plan.switch(description::SwitchRecord { ports: 8, hops, salt }, free);
    }
    for _ in 0..r.between(2, 3) {
        plan.cable(0, 1);
    }
    let cell = |source, nonce| {
        cell_number(salts[0], Triple { source, nonce, l: true }, bench::FILTER_CELLS)
    };
    let a = addresses::FIRST_HOST;
    let meets = |address: &u64| cell(*address, 1) == cell(a, 0);
    // The hash moves an address's last byte out of the cell number's bits, so
    // addresses that differ in the bytes before it are tried.
    let c = (1..).map(|step| a + step * 0x8001).find(meets).expect("one of some 64");
    for (switch, address) in [(0, a), (0, c), (1, c + 1)] {
        plan.host(switch, |_, _| address);
    }
    let network = plan.network();
    let number =
        |address| network.hosts().iter().position(|host| host.address == address).unwrap_or(0);
    let [a, c, d] = [a, c, c + 1].map(|address| number(address) as u8);
    Forgetful { network, a, c, d }
}

impl Forgetful {
    /// A has sent, and its frame has met C's: A's own switch may have learned
    /// it from a cable. Then others send until only what may remain names A.
    pub fn past(&self, r: &mut Random, play: &mut Play, remains: Option<Premise>) {
        let a = self.network.hosts[usize::from(self.a)].address;
        let held = |copy: &CopyInFlight| match remains {
            Some(Premise::NoCopyFromA) => copy.source == a,
            Some(Premise::NoCopyToA) => copy.destination == a,
            _ => false,
        };
        let _ = play.send(self.a, addresses::UNKNOWN);
        let _ = play.send(self.c, addresses::UNKNOWN);
        for _ in 0..r.between(4, 12) {
            self.take_one(r, play);
        }
        if remains != Some(Premise::TableUnnamed) {
            self.forget_records(r, play, a);
        }
        let keep = r.between(1, 2);
        self.drain(r, play, held, keep);
        if remains != Some(Premise::FilterUnnamed) {
            self.forget_triples(r, play, a, held);
        }
    }

    fn take_one(&self, r: &mut Random, play: &mut Play) {
        let count = usize::from(play.bench.copy_count);
        if count > 0 {
            let _ = play.event(Event::Take { place: r.below(count) as u16 });
        }
    }

    /// Others send to A, which erases its records where they lead nowhere.
    fn forget_records(&self, r: &mut Random, play: &mut Play, a: u64) {
        for _ in 0..200 {
            let mut seats = play.bench.seats.iter();
            if seats.all(|seat| seat.switch.table.lookup(a).is_none()) {
                return;
            }
            if r.chance(25) {
                let _ = play.send(r.pick(&[self.c, self.d]), a);
            } else {
                self.take_one(r, play);
            }
        }
    }

    /// Takes all copies but those held, of which so many are kept.
    fn drain(
        &self,
        r: &mut Random,
        play: &mut Play,
        held: impl Fn(&CopyInFlight) -> bool,
        keep: usize,
    ) {
        take_all(r, play, |copy| !held(copy));
        while play.bench.copies().iter().filter(|copy| held(copy)).count() > keep {
            self.take_one(r, play);
            take_all(r, play, |copy| !held(copy));
        }
    }

    /// Others flood until no filter holds a triple of A.
    fn forget_triples(
        &self,
        r: &mut Random,
        play: &mut Play,
        a: u64,
        held: impl Fn(&CopyInFlight) -> bool,
    ) {
        for _ in 0..600 {
            if !second::demand3::names(&play.bench, a).contains(&Premise::FilterUnnamed) {
                return;
            }
            let _ = play.send(r.pick(&[self.c, self.d]), addresses::UNKNOWN);
            take_all(r, play, |copy| !held(copy));
        }
    }
}
