//! The proved programs, started by the project's own `run`: `stumpclover` judges an
//! input, `vectors` tells what its lines don't show.

use std::env;
use std::fmt::Write as _;
use std::path::PathBuf;
use std::process::Command;

use crate::answer::{self, Answer, Transcript};
use crate::bytes::Description;
use crate::failure::Failure;
use crate::output::{self, Progress};
use crate::process;

/// Where the project stands; the script `stand` sets it.
pub const ROOT: &str = "STAND_ROOT";

/// What judges an input: the proved program, or a stand-in in the tests.
pub trait Bench {
    fn judge(&self, input: &[u8]) -> Result<Transcript, Failure>;
}

pub struct Proved {
    root: PathBuf,
}

impl Bench for Proved {
    fn judge(&self, input: &[u8]) -> Result<Transcript, Failure> {
        answer::transcript(&self.printed(input)?)
    }
}

impl Proved {
    pub fn here() -> Result<Self, Failure> {
        match env::var_os(ROOT) {
            Some(root) => Ok(Proved { root: PathBuf::from(root) }),
            None => Err(Failure::Machine(format!(
                "the desk doesn't know where the project is: start it by ./stand, or set {ROOT}\n"
            ))),
        }
    }

    /// What the bench program prints for the input, byte for byte.
    pub fn printed(&self, input: &[u8]) -> Result<String, Failure> {
        self.start("stumpclover", input)
    }

    /// What `vectors` says of the same input.
    pub fn answer(&self, input: &[u8]) -> Result<Answer, Failure> {
        let line = format!("run {} 0\n", hex(input));
        answer::run(&self.start("vectors", line.as_bytes())?)
    }

    /// The first record, from 0, at whose end the proved reader refuses the description.
    /// It is among the first 128: no more than 112 are ever accepted.
    pub fn faulty(&self, description: &Description) -> Result<Option<usize>, Failure> {
        const MANY: usize = 128;
        let mut lines = String::new();
        for end in description.ends.iter().take(MANY) {
            let _ = writeln!(lines, "read {} 0", hex(&description.bytes[..*end]));
        }
        let answers = self.start("vectors", lines.as_bytes())?;
        let mut verdicts = answers
            .lines()
            .filter(|line| line.starts_with("read ") || line.starts_with("refused "));
        Ok(verdicts.position(|line| line.starts_with("refused ")))
    }

    fn start(&self, name: &str, input: &[u8]) -> Result<String, Failure> {
        let built = self.root.join("crates").join(name).join("out").join(name).exists();
        let progress = if built { Progress::new() } else { Progress::none() };
        if !built {
            output::say(&format!(
                "stand: the proved program {name} isn't built yet; \
                 proving and building it takes some minutes, once\n"
            ));
        }
        let failed = |why: String| Failure::Machine(format!("./run {name} failed: {why}\n"));
        let mut command = Command::new(self.root.join("run"));
        let ended = process::feed(name, command.arg(name), input, progress)
            .map_err(|error| failed(error.to_string()))?;
        if !ended.status.success() {
            return Err(failed(format!(
                "{}; is the Rattle kit's rt on the path?",
                ended.status
            )));
        }
        String::from_utf8(ended.stdout).map_err(|_| failed("it printed no text".to_string()))
    }
}

fn hex(bytes: &[u8]) -> String {
    let mut digits = String::with_capacity(2 * bytes.len());
    for byte in bytes {
        let _ = write!(digits, "{byte:02x}");
    }
    digits
}
