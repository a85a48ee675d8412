//! Runs a command with an input and collects what it prints.

use std::io::{Read, Write};
use std::process::{Child, Command, Stdio};
use std::sync::mpsc::{self, Receiver};
use std::thread;
use std::time::Duration;

pub struct Running {
    child: Child,
    output: Receiver<Vec<u8>>,
}

pub struct Output {
    pub bytes: Vec<u8>,
    /// How the process ended, if it did not end well.
    pub trouble: Option<String>,
}

/// Starts a command. Words are parted by spaces; there is no shell.
pub fn start(command: &str, input: Vec<u8>) -> Result<Running, String> {
    let mut words = command.split_whitespace();
    let program = words.next().ok_or("the command is empty")?;
    let mut child = Command::new(program)
        .args(words)
        .stdin(Stdio::piped())
        .stdout(Stdio::piped())
        .spawn()
        .map_err(|error| format!("{command}: {error}"))?;
    let mut stdin = child.stdin.take().ok_or("no standard input")?;
    let mut stdout = child.stdout.take().ok_or("no standard output")?;
    // A program may end before it has read everything, which is no fault here.
    thread::spawn(move || stdin.write_all(&input));
    let (sender, output) = mpsc::channel();
    thread::spawn(move || {
        let mut bytes = Vec::new();
        let _ = stdout.read_to_end(&mut bytes);
        let _ = sender.send(bytes);
    });
    Ok(Running { child, output })
}

impl Running {
    /// Waits for the output; ends the process if it takes too long.
    pub fn finish(mut self, limit: Duration) -> Output {
        let Ok(bytes) = self.output.recv_timeout(limit) else {
            let _ = self.child.kill();
            let _ = self.child.wait();
            let bytes = self.output.recv_timeout(Duration::from_secs(5)).unwrap_or_default();
            let trouble = format!("no end within {} seconds", limit.as_secs());
            return Output { bytes, trouble: Some(trouble) };
        };
        let trouble = match self.child.wait() {
            Ok(status) if status.success() => None,
            Ok(status) => Some(format!("ended with {status}")),
            Err(error) => Some(error.to_string()),
        };
        Output { bytes, trouble }
    }
}
