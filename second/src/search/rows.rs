//! What is searched: demand 3 itself, and each of its premises dropped.

use crate::orders::{Small, When};
use crate::runs::Setting;
use second::demand3::Premise;

/// What a search has to find.
#[derive(Clone, Copy, PartialEq, Eq)]
pub enum Expected {
    /// No counterexample: all premises are kept.
    Nothing,
    /// A counterexample: the premise is needed.
    Counterexample,
    /// No counterexample either, for the reason given: the bench does without
    /// the premise.
    NothingBecause(&'static str),
}

pub struct Row {
    pub name: &'static str,
    pub setting: Setting,
    pub expected: Expected,
    /// One of so many of the runs that are asked for.
    pub share: u64,
}

pub const ROWS: [Row; 15] = [
    kept("all-kept", Setting { ..KEPT }, 1),
    kept("all-kept-a-known-before", Setting { known_before: true, ..KEPT }, 2),
    needed("limits-below-switches", dropped(Premise::EnoughHops)),
    needed(
        "limits-above-diameter",
        Setting { above_diameter: true, ..dropped(Premise::EnoughHops) },
    ),
    needed("copy-lost", dropped(Premise::NothingLost)),
    needed("record-overwritten", dropped(Premise::NothingOverwritten)),
    needed("cable-pulled", dropped(Premise::NoCablePulled)),
    needed("cable-plugged", dropped(Premise::NoCablePlugged)),
    needed("a-sends-again", dropped(Premise::SilentAfter)),
    needed("table-names-a", known(Premise::TableUnnamed)),
    needed("copy-from-a", known(Premise::NoCopyFromA)),
    needed("copy-to-a", known(Premise::NoCopyToA)),
    unneeded("filter-names-a", known(Premise::FilterUnnamed), AN_OLD_RECORD),
    unneeded("others-send-to-a", dropped(Premise::NobodySendsToA), FRAMES_TO_A),
    unneeded("a-to-itself", dropped(Premise::NotToItself), A_TO_ITSELF),
];

const AN_OLD_RECORD: &str = "all nonces with A's address come from one switch, and the events \
that a bench accepts don't bring them round, so an old record is never that of the new frame";
const FRAMES_TO_A: &str = "A's records lead home with falling hop counts, so a frame along them \
neither turns nor grows too old, and a flooded one has L set: none of rules 2, 5 and 10 erases A";
const A_TO_ITSELF: &str = "the frame has F and L set on all its way, and rules 2, 5 and 10 \
erase no destination of such a frame";

const KEPT: Setting = Setting { dropped: None, above_diameter: false, known_before: false };

const fn dropped(premise: Premise) -> Setting {
    Setting { dropped: Some(premise), ..KEPT }
}

/// A start that names A takes a past in which A was known.
const fn known(premise: Premise) -> Setting {
    Setting { known_before: true, ..dropped(premise) }
}

const fn kept(name: &'static str, setting: Setting, share: u64) -> Row {
    Row { name, setting, expected: Expected::Nothing, share }
}

const fn needed(name: &'static str, setting: Setting) -> Row {
    Row { name, setting, expected: Expected::Counterexample, share: 10 }
}

const fn unneeded(name: &'static str, setting: Setting, why: &'static str) -> Row {
    Row { name, setting, expected: Expected::NothingBecause(why), share: 3 }
}

const RING_OF_3: &[(usize, usize)] = &[(0, 1), (1, 2), (2, 0)];
const RING_OF_4: &[(usize, usize)] = &[(0, 1), (1, 2), (2, 3), (3, 0)];
const RING_OF_5: &[(usize, usize)] = &[(0, 1), (1, 2), (2, 3), (3, 4), (4, 0)];
const RING_OF_6: &[(usize, usize)] = &[(0, 1), (1, 2), (2, 3), (3, 4), (4, 5), (5, 0)];
const TAILED: &[(usize, usize)] = &[(0, 1), (1, 2), (2, 0), (2, 3)];
const PARALLEL: &[(usize, usize)] = &[(0, 1), (0, 1), (0, 1)];
const SELF_CABLED: &[(usize, usize)] = &[(0, 0), (0, 1), (1, 1), (1, 2), (2, 0)];
const TWO_RINGS: &[(usize, usize)] = &[(0, 1), (1, 2), (2, 0), (2, 3), (3, 4), (4, 2)];
const RINGS_WITH_A_CABLE_IN_COMMON: &[(usize, usize)] =
    &[(0, 1), (1, 2), (2, 3), (3, 0), (1, 4), (4, 2)];
const MESH_OF_4: &[(usize, usize)] = &[(0, 1), (0, 2), (0, 3), (1, 2), (1, 3), (2, 3)];

const WHEEL_OF_5: &[(usize, usize)] =
    &[(0, 1), (0, 2), (0, 3), (0, 4), (1, 2), (2, 3), (3, 4), (4, 1)];

/// Stands on which every order is tried, all premises kept.
pub const SMALL: [Small; 18] = [
    alone("line of 2", 2, &[(0, 1)]),
    alone("line of 5", 5, &[(0, 1), (1, 2), (2, 3), (3, 4)]),
    alone("ring of 3", 3, RING_OF_3),
    alone("ring of 4", 4, RING_OF_4),
    alone("ring of 5", 5, RING_OF_5),
    alone("ring of 6", 6, RING_OF_6),
    alone("triangle with a tail", 4, TAILED),
    alone("three parallel cables", 2, PARALLEL),
    alone("self-cabled switches", 3, SELF_CABLED),
    alone("two rings, one switch in common", 5, TWO_RINGS),
    alone("two rings, one cable in common", 5, RINGS_WITH_A_CABLE_IN_COMMON),
    alone("mesh of 4", 4, MESH_OF_4),
    alone("wheel of 5", 5, WHEEL_OF_5),
    Small { other: Some(When::Before), ..alone("ring of 3, another host first", 3, RING_OF_3) },
    Small {
        other: Some(When::AnyMoment),
        ..alone("ring of 3, another any time", 3, RING_OF_3)
    },
    Small {
        other: Some(When::AnyMoment),
        ..alone("ring of 4, another any time", 4, RING_OF_4)
    },
    Small { other: Some(When::AnyMoment), ..alone("parallel, another any time", 2, PARALLEL) },
    Small { other: Some(When::AnyMoment), ..alone("tail, another any time", 4, TAILED) },
];

/// The smallest stand on which a limit above the diameter (2) doesn't do.
pub const LOW_LIMIT: Small =
    Small { limit: 3, ..alone("triangle with a tail, limit 3", 4, TAILED) };

/// Limits just as high as demand 3 asks for.
const fn alone(name: &'static str, switches: u8, cables: &'static [(usize, usize)]) -> Small {
    Small { name, switches, cables, limit: switches, other: None }
}
