//! Words and pictures of a board's dump. Every answer about a dump is that of a proved call; this program reads files, asks and prints,
//! and nothing of it is proved. Each command is a module of `commands`.

mod commands;
mod dump;
mod flights;
mod json;
mod log;
mod out;
mod request;
mod stop;
mod words;

use std::process::ExitCode;

use out::Out;
use request::{Asked, Request};
use stop::Stop;

fn main() -> ExitCode {
    let words: Vec<_> = std::env::args_os().skip(1).collect();
    let mut out = Out::new();
    let ended = match request::asked(words) {
        Ok(Asked::Help(text)) => out.text(text).map_err(Stop::from),
        Ok(Asked::Answer(request)) => answer(&request, &mut out),
        Err(stop) => Err(stop),
    };
    let flushed = out.finish().map_err(Stop::from);
    match ended.and(flushed) {
        Ok(()) => ExitCode::SUCCESS,
        Err(stop) => ExitCode::from(stop.told()),
    }
}

/// Runs a command. A refusal before anything was printed still gives one JSON object where JSON was asked for.
fn answer(request: &Request, out: &mut Out) -> Result<(), Stop> {
    let ended = (request.command.run)(request, out);
    if let Err(Stop::Refused { refused, why }) = &ended
        && request.json
        && !out.begun()
    {
        json::refused(request, *refused, why, out)?;
    }
    ended
}
