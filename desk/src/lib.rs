//! The planners' desk: a stand as text is translated into the bench's input,
//! the proved programs judge it, and what they answer is put into words and
//! drawn. Nothing here knows how a switch steps.

pub mod answer;
pub mod bytes;
pub mod command;
pub mod draw;
pub mod failure;
pub mod geometry;
pub mod layout;
pub mod line;
pub mod mistake;
pub mod naming;
pub mod numbering;
pub mod output;
pub mod process;
pub mod proved;
pub mod refusal;
pub mod resolve;
pub mod run;
pub mod shuffle;
pub mod stand;
pub mod svg;
pub mod text;
pub mod words;
