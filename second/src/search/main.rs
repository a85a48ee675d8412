//! `search`: looks for counterexamples to demand 3, in random runs and in every
//! order on small stands; and for each premise that is dropped, where it has to
//! find one.

mod found;
mod options;
mod orders;
mod past;
mod play;
mod rows;
mod runs;
mod shrink;

use found::{Keeper, Shortest};
use options::Options;
use orders::Small;
use play::Play;
use rows::{Expected, Row};
use second::random::Random;
use std::collections::BTreeMap;
use std::time::Instant;

fn main() {
    let result = Options::from_arguments().and_then(|options| search(&options));
    match result {
        Ok(true) => {}
        Ok(false) => std::process::exit(1),
        Err(message) => {
            eprintln!("{message}");
            std::process::exit(3);
        }
    }
}

/// Answers whether all was as expected.
fn search(options: &Options) -> Result<bool, String> {
    let start = Instant::now();
    let mut keeper = Keeper::new(options.out.clone());
    println!("seed {}, {} runs", options.seed, options.runs);
    println!(
        "\nRandom runs{:>24}{:>9}{:>9}{:>9}  shortest",
        "runs", "usable", "events", "fail"
    );
    for (number, row) in rows::ROWS.iter().enumerate() {
        random_row(options, number as u64, row, &mut keeper)?;
    }
    println!("\nEvery order{:>30}{:>24}  fails", "states", "orders");
    for small in &rows::SMALL {
        orders_row(small, Expected::Nothing, &mut keeper)?;
    }
    orders_row(&rows::LOW_LIMIT, Expected::Counterexample, &mut keeper)?;
    keeper.say_why_not();
    println!("\n{:.1} s", start.elapsed().as_secs_f32());
    Ok(keeper.all_as_expected())
}

fn random_row(
    options: &Options,
    number: u64,
    row: &Row,
    keeper: &mut Keeper,
) -> Result<(), String> {
    let runs = (options.runs / row.share).max(1);
    let dropped = row.setting.dropped;
    let (mut usable, mut events, mut fail, mut detours) = (0, 0, 0, 0);
    let (mut shortest, mut shortest_detour) = (Shortest::default(), Shortest::default());
    let mut stands = BTreeMap::new();
    for run in 0..runs {
        let r = &mut Random::new(options.seed, number << 32 | run);
        let mut labels = Vec::new();
        let Some(play) = runs::run(r, row.setting, &mut labels) else { continue };
        usable += 1;
        events += play.events();
        labels.dedup();
        labels.into_iter().for_each(|label| *stands.entry(label).or_insert(0) += 1);
        if play.fails().is_some() {
            fail += 1;
            shortest.offer(&play);
        } else if dropped.is_none() && play.ends_with_a_detour() {
            detours += 1;
            shortest_detour.offer(&play);
        }
    }
    print!("{:<26}{runs:>9}{usable:>9}{events:>9}{fail:>9}", row.name);
    let shows = |play: &Play| play.is_counterexample(dropped);
    keeper.keep(row.name, row.expected, shortest, shows)?;
    if dropped.is_none() && !row.setting.known_before {
        println!("  stands among these: {stands:?}");
        print!("{:<26}{usable:>9}{usable:>9}{:>9}{detours:>9}", "shortest-paths", "");
        let expected = Expected::Counterexample;
        keeper.keep("shortest-paths", expected, shortest_detour, Play::ends_with_a_detour)?;
    }
    Ok(())
}

fn orders_row(small: &Small, expected: Expected, keeper: &mut Keeper) -> Result<(), String> {
    let explored = small.explore();
    print!("{:<33}{:>8}{:>24}", small.name, explored.states, explored.orders);
    keeper.keep_order(small, expected, &explored)
}
