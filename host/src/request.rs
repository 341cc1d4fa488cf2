//! What the command line asks.

use std::ffi::OsString;

use crate::commands::{self, Command};
use crate::dump::Source;
use crate::stop::Stop;

/// A command with its words.
pub struct Request {
    pub command: &'static Command,
    pub json: bool,
    words: Vec<OsString>,
}

/// What is to be printed.
pub enum Asked {
    Help(&'static str),
    Answer(Request),
}

/// Takes the words of a command line apart. Options may stand anywhere before `--`.
pub fn asked(words: Vec<OsString>) -> Result<Asked, Stop> {
    let mut words = words.into_iter();
    let name = words.next().unwrap_or_else(|| OsString::from("help"));
    let command = match name.to_str() {
        Some("help" | "--help" | "-h") => return Ok(Asked::Help(commands::HELP)),
        Some(name) => commands::ALL.iter().find(|command| command.name == name),
        None => None,
    };
    let command = command.ok_or_else(|| Stop::trouble(format!("no command {}", shown(&name))))?;
    let mut request = Request { command, json: false, words: Vec::new() };
    let mut options = true;
    for word in words {
        match word.to_str() {
            Some("--") if options => options = false,
            Some("--help" | "-h") if options => return Ok(Asked::Help(command.help)),
            Some("--json") if options && command.json => request.json = true,
            Some(text) if options && text.len() > 1 && text.starts_with('-') => {
                return Err(request.usage(&format!("no option {}", shown(&word))));
            }
            _ => request.words.push(word),
        }
    }
    if request.words.len() > command.words {
        return Err(request.usage("too many words"));
    }
    Ok(Asked::Answer(request))
}

impl Request {
    /// The dump at a place: a file, standard input for `-`, the sample where there is no word.
    pub fn source(&self, place: usize) -> Source {
        match self.words.get(place) {
            None => Source::Sample,
            Some(word) if word == "-" => Source::Input,
            Some(word) => Source::File(word.into()),
        }
    }

    /// The number that stands behind the dump at a place, if one does.
    pub fn number(&self, place: usize, name: &str) -> Result<Option<u32>, Stop> {
        let Some(word) = self.words.get(place) else { return Ok(None) };
        let digits = word.to_str().filter(|text| text.bytes().all(|byte| byte.is_ascii_digit()));
        match digits.and_then(|text| text.parse().ok()) {
            Some(number) => Ok(Some(number)),
            None => Err(self.usage(&format!("{name} is a number from 0 to 4294967295, not {}", shown(word)))),
        }
    }

    /// What is wrong with the words, and where help is.
    pub fn usage(&self, what: &str) -> Stop {
        let name = self.command.name;
        Stop::trouble(format!("{name}: {what} (./stipeflute {name} --help)"))
    }
}

/// A word that came from outside, without control characters.
pub fn shown(word: &std::ffi::OsStr) -> String {
    word.to_string_lossy().chars().map(|c| if c.is_control() { '?' } else { c }).collect()
}
