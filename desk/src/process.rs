//! A program started with an input, and what it printed.

use std::io::{self, Write};
use std::process::{Command, Output, Stdio};
use std::sync::mpsc::{self, Receiver, RecvTimeoutError};
use std::thread;
use std::time::{Duration, Instant};

use crate::output::Progress;

/// The input is written beside the reading, for neither shall wait for the other.
pub fn feed(
    name: &str,
    command: &mut Command,
    input: &[u8],
    progress: Progress,
) -> io::Result<Output> {
    let mut child = command.stdin(Stdio::piped()).stdout(Stdio::piped()).spawn()?;
    let stdin = child.stdin.take();
    let (running, ended) = mpsc::channel();
    thread::scope(|scope| {
        scope.spawn(move || {
            // A program that ends before it has read all says why by its status.
            let _ = stdin.map(|mut stdin| stdin.write_all(input));
        });
        scope.spawn(move || tick(name, progress, &ended));
        let output = child.wait_with_output();
        drop(running);
        output
    })
}

/// Shows how long the program has been running, until it has ended.
fn tick(name: &str, mut progress: Progress, ended: &Receiver<()>) {
    let start = Instant::now();
    while ended.recv_timeout(Duration::from_secs(1)) == Err(RecvTimeoutError::Timeout) {
        progress.show(&format!("{name} has been running for {} s", start.elapsed().as_secs()));
    }
}
