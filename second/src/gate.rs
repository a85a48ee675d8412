//! The gate's runs: `compare` without `--seed` and `--count`, `search` without
//! `--seed` and `--runs`. `mutants` makes the same run of `compare`, so that
//! what it shows holds for the gate.

/// In this seed's items each verdict, refusal and circumstance occurs.
pub const SEED: u64 = 29;
pub const COUNT: u64 = 60_000;

pub const SEARCH_SEED: u64 = 1;
pub const SEARCH_RUNS: u64 = 20_000;
