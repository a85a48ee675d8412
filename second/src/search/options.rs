//! The options of `search`.

use second::{gate, random};
use std::path::PathBuf;

const USAGE: &str = "\
usage: search [--seed N|fresh] [--runs K] [--out FOLDER]
  --seed N|fresh  fresh takes one from the clock (default: the gate's)
  --runs K        random runs with all premises kept; the other searches make a
                  share of it (default: the gate's)
  --out FOLDER    write what is found into it, as inputs for the bench program
exit: 0 all as expected, 1 not, 3 other trouble";

pub struct Options {
    pub seed: u64,
    pub runs: u64,
    pub out: Option<PathBuf>,
}

impl Options {
    pub fn from_arguments() -> Result<Options, String> {
        let mut options =
            Options { seed: gate::SEARCH_SEED, runs: gate::SEARCH_RUNS, out: None };
        let mut arguments = std::env::args().skip(1);
        while let Some(name) = arguments.next() {
            let value = arguments.next().ok_or(USAGE)?;
            match name.as_str() {
                "--seed" => options.seed = random::seed(&value)?,
                "--runs" => options.runs = value.parse().map_err(|_| USAGE)?,
                "--out" => options.out = Some(PathBuf::from(value)),
                _ => return Err(USAGE.to_string()),
            }
        }
        Ok(options)
    }
}
