//! `explain`: why the scan answers as it does, what that means, and what to do.

use stipeflute::{Reason, Refusal};

use super::Command;
use crate::dump::Dump;
use crate::json::{Head, Table};
use crate::log::Log;
use crate::out::{Out, Style};
use crate::request::Request;
use crate::stop::Stop;
use crate::words::{refusal, sentence};

pub const COMMAND: Command = Command { name: "explain", help: include_str!("../help/explain.txt"), words: 1, json: true, run };

fn run(request: &Request, out: &mut Out) -> Result<(), Stop> {
    let dump = Dump::open(&request.source(0))?;
    let log = Log::of(&dump)?;
    if request.json {
        let torn = log.torn(0..log.scan.next_page);
        return Ok(Table::begin(&Head { request, dump: &dump, log: &log, torn: &torn, refused: None }, out)?.end()?);
    }
    out.line(Style::Head, &format!("dump      {}", dump.name))?;
    for (name, lines) in [("why", why(log.reason)), ("means", means(&log)), ("do", to_do(log.reason))] {
        for (at, line) in lines.iter().enumerate() {
            out.line(Style::Plain, &format!("{:<10}{line}", if at == 0 { name } else { "" }))?;
        }
    }
    Ok(())
}

/// The reason in words.
pub fn why(reason: Reason) -> Vec<String> {
    let page = |index: u32, refused: Refusal| format!("Page {index} is refused {}: {}.", refusal(refused), sentence(refused));
    match reason {
        Reason::FirstTorn(refused) => vec!["Page 0 is used and does not decode.".to_string(), page(0, refused)],
        Reason::LastTorn { earlier_page, earlier, later_page, later } => vec![
            format!("The last two used pages, {earlier_page} and {later_page}, do not decode."),
            page(earlier_page, earlier),
            page(later_page, later),
        ],
        Reason::Full => vec!["The halving finds no blank page.".to_string()],
        Reason::Nothing => vec!["Nothing is wrong.".to_string()],
    }
}

fn means(log: &Log) -> Vec<String> {
    let lines: &[&str] = match log.reason {
        Reason::FirstTorn(_) | Reason::LastTorn { .. } => &[
            "The scan says foreign: a board that powers on with this log writes nothing to it,",
            "and no flight is listed. Whole pages still hold their records. Where only the proved",
            "writer wrote the log since an erase, a used page that does not decode is what a program",
            "left that was cut or that failed (docs/WHAT-THE-LOG-CAN-LOSE.md).",
        ],
        Reason::Full => &[
            "The scan says not writable: a board that powers on with this log writes nothing to it.",
            "Its flights are searched and acknowledged as before.",
        ],
        Reason::Nothing => {
            let scan = log.scan;
            return vec![format!("The next page that a board writes is page {}, of flight {}.", scan.next_page, scan.next_flight)];
        }
    };
    lines.iter().map(ToString::to_string).collect()
}

/// What to do: an erase is never the first of it.
fn to_do(reason: Reason) -> Vec<String> {
    let lines: &[&str] = match reason {
        Reason::FirstTorn(_) | Reason::LastTorn { .. } => &[
            "1. Read out the whole flash, and keep the dump.",
            "2. Salvage: `./stipeflute pages` lists every page of the dump, with its flight and its records.",
            "3. Only then may the log be erased: an erase takes the whole pages with it.",
        ],
        Reason::Full => &[
            "1. Read out the whole flash, and keep the dump.",
            "2. Have a host read and acknowledge each flight: `./stipeflute show` lists them.",
            "3. Only then may the log be erased.",
        ],
        Reason::Nothing => &["Nothing."],
    };
    lines.iter().map(ToString::to_string).collect()
}
