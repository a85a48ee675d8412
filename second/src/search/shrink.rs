//! Makes a run shorter: leaves out events as long as what it shows still holds
//! at some moment.

use crate::play::{Play, Run};

/// The run has to show it already.
pub fn shrink(run: &Run, shows: impl Fn(&Play) -> bool) -> Run {
    let mut best = run.clone();
    best.until(&shows);
    let mut size = best.events.len();
    while size > 0 {
        best = leave_out(best, size, &shows);
        size /= 2;
    }
    best
}

/// Goes through the events, so many at a time.
fn leave_out(mut best: Run, size: usize, shows: &impl Fn(&Play) -> bool) -> Run {
    let mut start = 0;
    while start < best.events.len() {
        let mut shorter = without(&best, start, size);
        if shorter.events.len() < best.events.len() && shorter.until(shows).is_some() {
            best = shorter;
        } else {
            start += size;
        }
    }
    best
}

/// Leaves out so many events from a place on, but never A's frame.
fn without(run: &Run, start: usize, size: usize) -> Run {
    let out = |place: &usize| (start..start + size).contains(place) && *place != run.frame;
    let kept = (0..run.events.len()).filter(|place| !out(place));
    let events = kept.map(|place| run.events[place]).collect();
    let frame = run.frame - (0..run.frame).filter(out).count();
    Run { events, frame, ..run.clone() }
}
