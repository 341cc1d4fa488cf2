//! Why the program ends without an answer, and its exit status.

use std::io;

use stipeflute::Refused;

use crate::words;

/// What stands between a request and its answer.
#[derive(Debug)]
pub enum Stop {
    /// A call refused: status 1.
    Refused { refused: Refused, why: String },
    /// A word of the command line, a file or standard output: status 2.
    Trouble(String),
    /// Whoever read standard output has closed it: nobody is left to tell, and the status is 0.
    Closed,
}

impl Stop {
    pub fn trouble(text: impl Into<String>) -> Stop {
        Stop::Trouble(text.into())
    }

    /// Says on standard error what stopped it, and gives the exit status.
    pub fn told(&self) -> u8 {
        match self {
            Stop::Refused { refused, why } => {
                eprintln!("stipeflute: refused {}: {why}", words::refusal(refused.refusal));
                1
            }
            Stop::Trouble(text) => {
                eprintln!("stipeflute: {text}");
                2
            }
            Stop::Closed => 0,
        }
    }
}

/// A refusal, with the sentence that belongs to its number.
impl From<Refused> for Stop {
    fn from(refused: Refused) -> Stop {
        Stop::Refused { refused, why: words::sentence(refused.refusal).to_string() }
    }
}

/// Standard output is the only file that is written.
impl From<io::Error> for Stop {
    fn from(error: io::Error) -> Stop {
        match error.kind() {
            io::ErrorKind::BrokenPipe => Stop::Closed,
            _ => Stop::Trouble(format!("cannot write to standard output: {error}")),
        }
    }
}
