//! The commands, a module each. A new one is a module, a line of `ALL` and a file in help/, by which the script knows its name.

mod draw;
mod explain;
mod pages;
mod records;
mod show;

use crate::out::Out;
use crate::request::Request;
use crate::stop::Stop;

pub struct Command {
    pub name: &'static str,
    pub help: &'static str,
    /// How many words it takes at most.
    pub words: usize,
    /// Whether it prints a table, and so takes `--json`.
    pub json: bool,
    pub run: fn(&Request, &mut Out) -> Result<(), Stop>,
}

pub const ALL: [Command; 5] = [show::COMMAND, explain::COMMAND, pages::COMMAND, records::COMMAND, draw::COMMAND];

pub const HELP: &str = include_str!("../help.txt");
