//! Random runs of demand 3: a stand, a start, A's frame, and then copies taken
//! in any order among whatever else the premises allow. Events that would break
//! a premise are left out, so that nearly all runs can be used.

use crate::past::{self, Forgetful};
use crate::play::Play;
use second::addresses;
use second::bench::{Bench, Event};
use second::demand3::{distances, names, Claim, Premise};
use second::description::{Network, HOPS_MAX};
use second::random::Random;
use second::stands;
use second::traffic::{self, Habit};

/// Events that are tried before a run is given up. The list may be so full that
/// each copy of the frame would lose another.
const TRIES: usize = 1_000;

/// What is special about the runs of a row.
#[derive(Clone, Copy, Default)]
pub struct Setting {
    /// The premise that is dropped.
    pub dropped: Option<Premise>,
    /// If limits are too low: they are still above the stand's diameter.
    pub above_diameter: bool,
    /// A has been known before the start.
    pub known_before: bool,
}

/// A run up to the first claim that fails, or some time beyond its last copy.
/// Nothing if it can't be used: a premise fails that should hold, or the
/// dropped one was kept.
pub fn run(r: &mut Random, setting: Setting, labels: &mut Vec<&'static str>) -> Option<Play> {
    let (mut play, host) = start(r, setting, labels)?;
    let a = play.bench.network.hosts[usize::from(host)].address;
    let at_start = names(&play.bench, a);
    if at_start.iter().any(|premise| Some(*premise) != setting.dropped) {
        return None;
    }
    play.begin(host, destination(r, &play.bench, a, setting));
    let fails = flood(r, &mut play, setting.dropped);
    let is_usable = play.watch().broken() == setting.dropped.as_slice()
        && (fails.is_some() || play.is_over());
    is_usable.then_some(play)
}

/// A stand in a state before A sends, and who A is.
fn start(
    r: &mut Random,
    setting: Setting,
    labels: &mut Vec<&'static str>,
) -> Option<(Play, u8)> {
    if setting.known_before {
        let stand: Forgetful = past::forgetful(r);
        let mut play = Play::fresh(&stand.network);
        stand.past(r, &mut play, setting.dropped);
        return Some((play, stand.a));
    }
    let mut network = stands::busy(r, labels);
    set_limits(r, &mut network, setting)?;
    let mut play = Play::fresh(&network);
    let host = r.below(usize::from(network.host_count)) as u8;
    if setting.dropped == Some(Premise::NothingLost) {
        past::crowd(r, &mut play, host);
    } else if !setting.above_diameter {
        // A pulled cable may make the diameter larger.
        past::others(r, &mut play, host);
    }
    Some((play, host))
}

/// Limits as the setting wants them. Nothing if no number is between.
fn set_limits(r: &mut Random, network: &mut Network, setting: Setting) -> Option<()> {
    let count = network.switches().len();
    let too_low = setting.dropped == Some(Premise::EnoughHops);
    let least = if setting.above_diameter { diameter(network)? + 1 } else { 1 };
    if too_low && least >= count {
        return None;
    }
    let lowest = r.flag();
    for switch in 0..count {
        let enough = r.pick(&[count, count, HOPS_MAX.into(), 0]);
        let low = if lowest { least } else { r.between(least, count.max(least + 1) - 1) };
        network.switches[switch].hops = if too_low { low } else { enough } as u8;
    }
    Some(())
}

/// The largest distance of two switches; nothing if not all are joined.
fn diameter(network: &Network) -> Option<usize> {
    let bench = Bench::fresh(network).expect("a network that the writer accepts");
    let mut most = 0;
    for switch in 0..network.switch_count {
        for distance in &distances(&bench, switch)[..network.switches().len()] {
            most = most.max((*distance)?);
        }
    }
    Some(most)
}

/// To another host, to nobody, to a group.
fn destination(r: &mut Random, bench: &Bench, a: u64, setting: Setting) -> u64 {
    if setting.dropped == Some(Premise::NotToItself) {
        return a;
    }
    let others = bench.network.hosts().iter().map(|host| host.address);
    let mut choice: Vec<u64> = others.filter(|address| *address != a).collect();
    choice.extend([addresses::UNKNOWN, addresses::EVERYBODY]);
    r.pick(&choice)
}

/// From A's frame to some time after its last copy: any traffic first, then
/// the frame's copies alone, then any traffic again.
fn flood(r: &mut Random, play: &mut Play, dropped: Option<Premise>) -> Option<Claim> {
    let mut habit = Habit::new(r);
    let among = r.pick(&[0, 5, 20, 60, 150]);
    let mut afterwards = r.pick(&[1, 10, 30]);
    for tried in 0..TRIES {
        if play.fails().is_some() || afterwards == 0 {
            return play.fails();
        }
        if r.chance(4) {
            habit = Habit::new(r);
        }
        let over = play.is_over();
        let event = if tried < among || over {
            traffic::event(r, &play.bench, &habit)
        } else {
            take_of_it(r, play)
        };
        play.event_within(event, dropped);
        afterwards -= usize::from(over);
    }
    None
}

fn take_of_it(r: &mut Random, play: &Play) -> Event {
    let copies = play.bench.copies().iter().enumerate();
    let of_it = copies.filter(|(_, copy)| play.watch().is_of_it(copy));
    let places: Vec<u16> = of_it.map(|(place, _)| place as u16).collect();
    Event::Take { place: r.pick(&places) }
}
