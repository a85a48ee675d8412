//! The head's switch and the network bench a second time, written from the
//! documents alone. It is run beside the proved program and both are compared.
//!
//! * `frame`: host frames, tagged frames, header, tagging and stripping
//! * `table`: the learning table
//! * `filter`: the filter of triples
//! * `step`: one step of the switch, rules 1 to 11
//! * `description`: the network description, reader and writer
//! * `bench`: the network bench, events, reports and counters
//! * `transcript`: what the bench program reads and prints
//! * `vectors`: single calls as lines of text (FORMAT.md)
//!
//! What its tools share:
//!
//! * `demand3`: a judge of runs, by the premises and claims of demand 3
//! * `gate`: the seed and the count of the gate's run of `compare`
//! * `places`: where the tools find each other and what they write
//! * `random`, `addresses`, `plan`, `stands`, `traffic`: numbers from a seed,
//!   and addresses, networks and events from these

pub mod addresses;
pub mod bench;
pub mod demand3;
pub mod description;
pub mod filter;
pub mod frame;
pub mod gate;
pub mod places;
pub mod plan;
pub mod random;
pub mod refusal;
pub mod stands;
pub mod step;
pub mod table;
pub mod traffic;
pub mod transcript;
pub mod vectors;
