//! What occurred, and what had to occur.

use crate::Kind;
use std::collections::BTreeMap;

const VERDICTS: [&str; 9] = ["X", "D", "G", "E", "F", "N", "B", "H", "U"];

/// What each call has to show.
fn required(kind: Kind) -> Vec<String> {
    let refusals = |numbers: &[u8]| -> Vec<String> {
        numbers.iter().map(|number| format!("refused {number}")).collect()
    };
    let words =
        |words: &[&str]| -> Vec<String> { words.iter().map(|word| word.to_string()).collect() };
    match kind {
        Kind::Step => [words(&VERDICTS), refusals(&[1, 2, 3, 4, 5, 6, 7, 8, 9])].concat(),
        Kind::Tag => [words(&["tagged"]), refusals(&[4, 6, 8, 9, 10])].concat(),
        Kind::Strip => [words(&["stripped"]), refusals(&[4, 6, 7, 8, 9])].concat(),
        Kind::Read => [words(&["read"]), refusals(&[20, 21, 22, 23, 24, 25, 26])].concat(),
        Kind::Write => [words(&["written"]), refusals(&[22, 23, 24, 25, 26, 27])].concat(),
        Kind::Fresh => [words(&["fresh"]), refusals(&[22, 23, 24, 25, 26])].concat(),
        Kind::Event => {
            [words(&VERDICTS), words(&["K"]), refusals(&[28, 30, 31, 32, 33, 34])].concat()
        }
        Kind::Run | Kind::Bench => {
            let refused = refusals(&[20, 21, 22, 23, 24, 25, 26, 30, 31, 32, 33]);
            [words(&VERDICTS), words(&["K", "stop 20"]), refused].concat()
        }
    }
}

/// Circumstances that have to occur somewhere.
const CIRCUMSTANCES: [&str; 27] = [
    "ring",
    "mesh",
    "parallel cables",
    "self-cabled switch",
    "64 links",
    "32 hosts",
    "512 copies in flight",
    "step refused for one byte",
    "tag refused for one byte",
    "strip refused for one byte",
    "write refused for one byte",
    "step with just enough room",
    "tag with just enough room",
    "strip with just enough room",
    "write with just enough room",
    "input of 60,000 bytes",
    "input of 60,001 bytes",
    "table full at a step",
    "cell overwritten at a step",
    "nonce came round",
    "flood with no port",
    "copies lost for want of room",
    "copies cut",
    "cable pulled in mid-flood of a run",
    "cell overwritten on a bench",
    "cell overwritten in a run",
    "sender received its own frame",
];

/// Labels of an output's length.
pub const SHORT_BY_ONE: &str = "output short by one";
pub const JUST_ENOUGH: &str = "output just long enough";

#[derive(Default)]
pub struct Coverage {
    calls: BTreeMap<(Kind, String), u64>,
    circumstances: BTreeMap<String, u64>,
    items: BTreeMap<Kind, u64>,
}

impl Coverage {
    /// Counts an item by the second program's answer.
    pub fn count(&mut self, kind: Kind, labels: &[&str], answer: &str) {
        *self.items.entry(kind).or_default() += 1;
        let mut seen: Vec<&str> = labels.to_vec();
        let edge = about_room(kind, labels, answer);
        seen.extend(edge.as_deref());
        for line in answer.lines() {
            let tokens: Vec<&str> = line.split(' ').collect();
            if let Some(outcome) = outcome(kind, &tokens) {
                *self.calls.entry((kind, outcome)).or_default() += 1;
            }
            seen.extend(circumstances(kind, &tokens));
        }
        // A circumstance counts once an item, however many lines show it.
        seen.sort_unstable();
        seen.dedup();
        for circumstance in seen {
            *self.circumstances.entry(circumstance.to_string()).or_default() += 1;
        }
    }

    /// Prints all counts and gives what is missing among these kinds.
    pub fn print(&self, kinds: &[Kind]) -> Vec<String> {
        let mut missing = Vec::new();
        for &kind in kinds {
            let items = self.items.get(&kind).copied().unwrap_or(0);
            let mut counts = Vec::new();
            for outcome in required(kind) {
                let count = self.calls.get(&(kind, outcome.clone())).copied().unwrap_or(0);
                if count == 0 {
                    missing.push(format!("{}: {outcome}", kind.word()));
                }
                counts.push(format!("{outcome}: {count}"));
            }
            println!("{} ({items}): {}", kind.word(), counts.join(", "));
            if let Some(count) = self.calls.get(&(kind, "unreadable".to_string())) {
                missing.push(format!("{}: {count} vectors were unreadable", kind.word()));
            }
        }
        let mut counts = Vec::new();
        for circumstance in CIRCUMSTANCES {
            let count = self.circumstances.get(circumstance).copied().unwrap_or(0);
            if count == 0 {
                missing.push(circumstance.to_string());
            }
            counts.push(format!("{circumstance}: {count}"));
        }
        println!("circumstances: {}", counts.join(", "));
        missing
    }
}

/// What a line of an answer says that a call came to, in the words of
/// `required`. Most lines show what a call left and say nothing of that.
fn outcome(kind: Kind, tokens: &[&str]) -> Option<String> {
    let outcome = match (kind, tokens) {
        (_, ["refused", number]) => format!("refused {number}"),
        (Kind::Step, ["step", verdict, _, _, _, _, _, _, _]) => verdict.to_string(),
        (Kind::Tag | Kind::Strip | Kind::Read | Kind::Write, [word, ..])
            if ["tagged", "stripped", "read", "written"].contains(word) =>
        {
            word.to_string()
        }
        (Kind::Fresh, ["fresh"]) => "fresh".to_string(),
        (Kind::Event | Kind::Run, ["report", verdict, ..]) => verdict.to_string(),
        (Kind::Run | Kind::Bench, [_, "I" | "T" | "K", number, "R", ..]) => {
            format!("refused {number}")
        }
        (Kind::Bench, [_, "I" | "T" | "K", "0", verdict, ..]) => verdict.to_string(),
        (Kind::Run | Kind::Bench, ["stop", "20"]) => "stop 20".to_string(),
        (_, ["unreadable"]) => "unreadable".to_string(),
        _ => return None,
    };
    Some(outcome)
}

/// What a line of an answer shows besides the outcome.
fn circumstances(kind: Kind, tokens: &[&str]) -> Vec<&'static str> {
    match (kind, tokens) {
        (Kind::Step, ["step", verdict, mask, _, _, hc, nonce, full, overwrote]) => {
            let mut seen = stepped(mask, verdict, full, overwrote);
            let came_round = *hc == "1" && *nonce == "16777215";
            seen.extend(came_round.then_some("nonce came round"));
            seen
        }
        (Kind::Event | Kind::Run, ["report", verdict, rest @ ..]) => {
            reported(kind, verdict, rest)
        }
        _ => Vec::new(),
    }
}

/// An output that was a byte short, or just long enough, and mattered.
fn about_room(kind: Kind, labels: &[&str], answer: &str) -> Option<String> {
    let refused = answer.starts_with("refused 9\n") || answer.starts_with("refused 27\n");
    if refused && labels.contains(&SHORT_BY_ONE) {
        return Some(format!("{} refused for one byte", kind.word()));
    }
    if !answer.starts_with("refused") && labels.contains(&JUST_ENOUGH) {
        return Some(format!("{} with just enough room", kind.word()));
    }
    None
}

fn stepped(mask: &str, verdict: &str, full: &str, overwrote: &str) -> Vec<&'static str> {
    let mut seen = Vec::new();
    seen.extend((full == "1").then_some("table full at a step"));
    seen.extend((overwrote == "1").then_some("cell overwritten at a step"));
    let nowhere = mask == "0000" && ["F", "N"].contains(&verdict);
    seen.extend(nowhere.then_some("flood with no port"));
    seen
}

/// MASK L F HC NONCE PLACED LOST CUT HOSTS OVERWRITTEN ...
fn reported(kind: Kind, verdict: &str, rest: &[&str]) -> Vec<&'static str> {
    let mut seen = Vec::new();
    seen.extend((rest[6] != "0").then_some("copies lost for want of room"));
    if rest[7] != "0" {
        seen.push("copies cut");
        seen.extend((kind == Kind::Run).then_some("cable pulled in mid-flood of a run"));
    }
    let to_sender = verdict == "H" && rest[8] != "00000000";
    seen.extend(to_sender.then_some("sender received its own frame"));
    if rest[9] != "0" {
        let run = kind == Kind::Run;
        let what =
            if run { "cell overwritten in a run" } else { "cell overwritten on a bench" };
        seen.push(what);
    }
    seen
}
