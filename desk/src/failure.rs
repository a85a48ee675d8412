//! Why a command ends without its result, and the exit status that says so.

#[derive(Debug, PartialEq)]
pub enum Failure {
    /// The stand file has mistakes.
    Stand(String),
    /// The proved reader refuses the stand, with this number.
    Refused { number: u8, why: String },
    /// The command line can't be read.
    Usage(String),
    /// Something of the machine is missing or fails: a file, a program, Graphviz.
    Machine(String),
    /// Whoever reads the output has closed it.
    Closed,
}

impl Failure {
    pub fn status(&self) -> u8 {
        match self {
            Failure::Closed => 0,
            Failure::Stand(_) | Failure::Refused { .. } => 1,
            Failure::Usage(_) => 2,
            Failure::Machine(_) => 3,
        }
    }

    /// Nothing for a closed output: there is nobody to tell.
    pub fn message(&self) -> &str {
        match self {
            Failure::Closed => "",
            Failure::Stand(text) | Failure::Usage(text) | Failure::Machine(text) => text,
            Failure::Refused { why, .. } => why,
        }
    }
}
