//! The options of `compare`.

use crate::{Kind, Widths, KINDS};
use second::{gate, places, random};
use std::path::PathBuf;

pub const USAGE: &str = "\
usage: compare --other 'COMMAND ...' [options]
       compare --self [options]
       compare --show N [--seed N ...]
  --other COMMAND          the other program; words parted by spaces, no shell
  --other-vectors COMMAND  how it answers vectors (default: COMMAND vectors)
  --second PATH            run this second program (default: in this process)
  --self                   the other program is the second program beside this one
  --seed N|fresh           fresh takes one from the clock (default: the gate's)
  --count K                how many items (default: the gate's)
  --only N                 this item alone
  --show N                 print this item's input and nothing else
  --without KIND           leave out a kind: step tag strip read write fresh event run bench
  --copies link|port       how copies of a bench are handed in (default link)
  --counter-bits 32|64     how large counters may be (default 64)
  --batch N                vectors for each start of a program (default 2000)
  --timeout SECONDS        for each start (default 120)
  --out FOLDER             where a difference is written (default: difference, in cargo's folder)
exit: 0 no difference, 1 a difference, 2 something did not occur, 3 other trouble";

pub struct Options {
    pub other: String,
    pub other_vectors: String,
    pub second: Option<String>,
    pub seed: u64,
    pub count: u64,
    pub only: Option<u64>,
    pub show: Option<u64>,
    pub without: Vec<Kind>,
    pub widths: Widths,
    pub batch: usize,
    pub timeout: u64,
    pub out: PathBuf,
}

impl Options {
    pub fn from_arguments() -> Result<Options, String> {
        let mut options = Options {
            other: String::new(),
            other_vectors: String::new(),
            second: None,
            seed: gate::SEED,
            count: gate::COUNT,
            only: None,
            show: None,
            without: Vec::new(),
            widths: Widths { counter: u64::MAX, by_port: false },
            batch: 2_000,
            timeout: 120,
            out: places::folder("difference")?,
        };
        let mut arguments = std::env::args().skip(1);
        while let Some(name) = arguments.next() {
            if name == "--self" {
                options.other = places::beside("second")?.to_string_lossy().into_owned();
                continue;
            }
            let value = arguments.next().ok_or(format!("{name} has no value"))?;
            options.set(&name, value)?;
        }
        if options.other.is_empty() && options.show.is_none() {
            return Err("there is no other program".to_string());
        }
        if options.other_vectors.is_empty() {
            options.other_vectors = format!("{} vectors", options.other);
        }
        Ok(options)
    }

    fn set(&mut self, name: &str, value: String) -> Result<(), String> {
        let number = || value.parse::<u64>().map_err(|_| format!("{name}: not a number"));
        match name {
            "--other" => self.other = value,
            "--other-vectors" => self.other_vectors = value,
            "--second" => self.second = Some(value),
            "--seed" => self.seed = random::seed(&value)?,
            "--count" => self.count = number()?,
            "--only" => self.only = Some(number()?),
            "--show" => self.show = Some(number()?),
            "--without" => {
                let kind = KINDS.into_iter().find(|kind| kind.word() == value);
                self.without.push(kind.ok_or(format!("no such kind: {value}"))?);
            }
            "--copies" => {
                self.widths.by_port = match value.as_str() {
                    "link" => false,
                    "port" => true,
                    _ => return Err("--copies is link or port".to_string()),
                }
            }
            "--counter-bits" => {
                self.widths.counter = match number()? {
                    32 => u32::MAX.into(),
                    64 => u64::MAX,
                    _ => return Err("--counter-bits is 32 or 64".to_string()),
                }
            }
            "--batch" => self.batch = number()?.max(1) as usize,
            "--timeout" => self.timeout = number()?,
            "--out" => self.out = PathBuf::from(value),
            _ => return Err(format!("unknown option {name}")),
        }
        Ok(())
    }
}
