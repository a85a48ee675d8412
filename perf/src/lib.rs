//! The hand-written program that the proved engine is timed against: a head's switch and the bench
//! with all their checks, the way they would be written by hand, with fixed arrays and changes in
//! place. It shares no code with the second program, which is written to be read, not to be fast.
pub mod bench;
pub mod stand;
pub mod switch;
pub mod transcript;
