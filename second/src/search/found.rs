//! What the search found: said, held against what was expected, and written as
//! inputs for the bench program.

use crate::orders::{Explored, Small};
use crate::play::{Play, Run};
use crate::rows::Expected;
use crate::shrink::shrink;
use second::demand3::Claim;
use std::fs;
use std::path::PathBuf;

/// The run with the fewest events of those offered.
#[derive(Default)]
pub struct Shortest(Option<Run>);

impl Shortest {
    pub fn offer(&mut self, play: &Play) {
        if self.0.as_ref().is_none_or(|run| play.events() < run.events.len()) {
            self.0 = Some(play.run());
        }
    }
}

pub struct Keeper {
    out: Option<PathBuf>,
    surprises: Vec<String>,
    /// Names of searches that find nothing, and why they don't.
    reasons: Vec<(&'static str, &'static str)>,
}

impl Keeper {
    pub fn new(out: Option<PathBuf>) -> Keeper {
        Keeper { out, surprises: Vec::new(), reasons: Vec::new() }
    }

    /// Ends a line of the table: the shortest run that shows it, made shorter.
    pub fn keep(
        &mut self,
        name: &'static str,
        expected: Expected,
        found: Shortest,
        shows: impl Fn(&Play) -> bool,
    ) -> Result<(), String> {
        self.expect(name, expected, found.0.is_some());
        let Some(run) = found.0 else {
            println!("  none found");
            return Ok(());
        };
        let mut run = shrink(&run, &shows);
        let claim = run.until(&shows).and_then(|play| play.fails());
        println!("  {} events: {}", run.events.len(), words(claim));
        self.write(name, &run)
    }

    /// The same for a stand on which every order was tried.
    pub fn keep_order(
        &mut self,
        small: &Small,
        expected: Expected,
        explored: &Explored,
    ) -> Result<(), String> {
        self.expect(small.name, expected, explored.fault.is_some());
        if explored.left_out > 0 {
            self.surprises.push(format!("{}: not every order keeps the premises", small.name));
        }
        let detour = if explored.detour { " (detours occur)" } else { "" };
        let Some((run, claim)) = &explored.fault else {
            println!("  none{detour}");
            return Ok(());
        };
        println!("  {}{detour}", words(Some(*claim)));
        self.write(&small.name.replace(", ", "-").replace(' ', "-"), run)
    }

    fn expect(&mut self, name: &'static str, expected: Expected, found: bool) {
        if found != (expected == Expected::Counterexample) {
            let what = if found { "a counterexample" } else { "no counterexample" };
            self.surprises.push(format!("{name}: {what} was found"));
        }
        if let Expected::NothingBecause(why) = expected {
            self.reasons.push((name, why));
        }
    }

    fn write(&self, name: &str, run: &Run) -> Result<(), String> {
        let Some(folder) = &self.out else { return Ok(()) };
        let input = run.input().ok_or(format!("{name}: too long for the bench program"))?;
        fs::create_dir_all(folder).map_err(|error| error.to_string())?;
        let path = folder.join(format!("{name}.bin"));
        fs::write(&path, input).map_err(|error| format!("{}: {error}", path.display()))
    }

    pub fn say_why_not(&self) {
        println!("\nPremises of which no run shows that they are needed:");
        for (name, why) in &self.reasons {
            println!("{name}: {why}.");
        }
    }

    pub fn all_as_expected(&self) -> bool {
        for surprise in &self.surprises {
            println!("NOT AS EXPECTED: {surprise}");
        }
        self.surprises.is_empty()
    }
}

fn words(claim: Option<Claim>) -> &'static str {
    match claim {
        Some(Claim::SentOnce) => "a port sends the frame twice",
        Some(Claim::LeadsHome) => "recorded ports don't lead to A",
        Some(Claim::AllRecord) => "a joined switch has no record for A",
        Some(Claim::OneCopyEach) => "a joined host hasn't received one copy",
        None => "recorded ports make a detour",
    }
}
