//! `stand`: see `stand help`.

use std::process::ExitCode;

use desk::{command, output};

fn main() -> ExitCode {
    let words: Vec<String> =
        std::env::args_os().skip(1).map(|word| word.to_string_lossy().into_owned()).collect();
    match command::command(&words) {
        Ok(()) => ExitCode::SUCCESS,
        Err(failure) => {
            output::say(failure.message());
            ExitCode::from(failure.status())
        }
    }
}
