//! `show`: capacity, scan, ledger, flights and torn pages.

use std::io;

use stipeflute::LedgerHeader;

use super::Command;
use super::explain::why;
use crate::dump::Dump;
use crate::flights::{self, Flight, acknowledged};
use crate::json::{Head, Table};
use crate::log::{Log, Page};
use crate::out::{Out, Style};
use crate::request::Request;
use crate::stop::Stop;
use crate::words::{counted, grouped, refusal, span, spans};

pub const COMMAND: Command = Command { name: "show", help: include_str!("../help/show.txt"), words: 1, json: true, run };

fn run(request: &Request, out: &mut Out) -> Result<(), Stop> {
    let dump = Dump::open(&request.source(0))?;
    let log = Log::of(&dump)?;
    let flights = flights::of(&log);
    let torn = log.torn(0..log.scan.next_page);
    if request.json {
        let head = Head { request, dump: &dump, log: &log, torn: &torn, refused: flights.as_ref().err() };
        json(&head, flights.as_deref().unwrap_or_default(), out)?;
    } else {
        words(&dump, &log, flights.as_deref(), &torn, out)?;
    }
    flights.map(drop)
}

fn json(head: &Head, flights: &[Flight], out: &mut Out) -> Result<(), Stop> {
    let mut table = Table::begin(head, out)?;
    for flight in flights {
        table.row(vec![
            ("flight", flight.stored.flight_id.into()),
            ("start_page", flight.stored.start_page.into()),
            ("pages", flight.stored.pages.into()),
            ("records", flight.records.into()),
            ("torn", flight.torn.into()),
            ("acknowledged", flight.acknowledged.into()),
        ])?;
    }
    Ok(table.end()?)
}

fn words(dump: &Dump, log: &Log, flights: Result<&[Flight], &Stop>, torn: &[u32], out: &mut Out) -> Result<(), Stop> {
    let layout = log.layout;
    out.line(Style::Head, &format!("dump      {}", dump.name))?;
    let pages = counted(layout.log_page_count as usize, "log page");
    out.line(Style::Plain, &format!("capacity  {} bytes: {pages} of 256 bytes", grouped(layout.capacity_bytes.into())))?;
    for (at, line) in scan_lines(log).iter().enumerate() {
        let name = if at == 0 { "scan" } else { "" };
        out.line(Style::Plain, &format!("{name:<10}{line}"))?;
    }
    out.line(Style::Plain, &format!("pages     {}", pages_line(log)))?;
    out.line(Style::Plain, &format!("ledger    {}", ledger_line(log.ledger)))?;
    match flights {
        _ if log.foreign() => return Ok(()),
        Ok(flights) => flight_table(flights, out)?,
        Err(stop) => out.line(Style::Torn, &format!("flights   {}", refused_line(stop)))?,
    }
    torn_lines(log, torn, out)?;
    Ok(beyond_lines(log, out)?)
}

/// How many log pages are whole, blank and neither, by their bytes alone.
fn pages_line(log: &Log) -> String {
    let (mut whole, mut blank, mut neither) = (0, 0, 0);
    for page in &log.pages {
        match page {
            Page::Whole(_) => whole += 1,
            Page::Blank(_) => blank += 1,
            Page::Torn(_) => neither += 1,
        }
    }
    format!("{} whole, {} blank, {} neither", grouped(whole), grouped(blank), grouped(neither))
}

/// The scan's answer, and what it means.
pub fn scan_lines(log: &Log) -> Vec<String> {
    let scan = log.scan;
    let writable = if scan.writable { "writable" } else { "not writable" };
    let answer = format!("next page {}, next flight {}, {writable}", scan.next_page, scan.next_flight);
    let meaning = match scan.next_page.checked_sub(1) {
        None if log.foreign() => {
            let mut lines = vec![answer + ": the log is foreign"];
            lines.extend(why(log.reason));
            lines.push("No flight is listed of a foreign log; `pages` lists every page, and `explain` says what to do.".to_string());
            return lines;
        }
        None => "No page is used.".to_string(),
        Some(last) if scan.writable => format!("Used: {}. Page {} is blank.", used(last), scan.next_page),
        Some(last) => format!("Used: {}, which is all of them.", used(last)),
    };
    vec![answer, meaning]
}

fn used(last: u32) -> String {
    format!("page{} {}", if last == 0 { "" } else { "s" }, span(0, last))
}

/// The ledger's header in words.
pub fn ledger_line(header: LedgerHeader) -> &'static str {
    match header {
        LedgerHeader::Blank => "Blank: it acknowledges no flight",
        LedgerHeader::Valid => "Valid",
        LedgerHeader::Foreign => "Foreign: its first eight bytes are neither \"FWSYNC01\" nor blank; it acknowledges no flight",
    }
}

/// Why there are no flights.
pub fn refused_line(stop: &Stop) -> String {
    match stop {
        Stop::Refused { refused, why } => format!("refused {}: {why}", refusal(refused.refusal)),
        Stop::Trouble(_) | Stop::Closed => "not answered".to_string(),
    }
}

fn flight_table(flights: &[Flight], out: &mut Out) -> Result<(), Stop> {
    if flights.is_empty() {
        return Ok(out.line(Style::Plain, "flights   none")?);
    }
    let records: usize = flights.iter().map(|flight| flight.records as usize).sum();
    let held = format!("{} in their whole pages", counted(records, "record"));
    out.line(Style::Plain, &format!("flights   {}, of which {} acknowledged; {held}", flights.len(), acknowledged(flights)))?;
    out.text("\n")?;
    let head = ["flight", "start", "pages", "records", "torn", "acknowledged"];
    let rows: Vec<_> = flights.iter().map(row).collect();
    out.table(&head, &rows)?;
    if flights.iter().any(|flight| flight.acknowledged.is_none()) {
        out.line(Style::Plain, "- is refused 8 OutOfRange: the ledger has no bit for flight 0 and flights above 32,704.")?;
    }
    Ok(out.text("\n")?)
}

fn row(flight: &Flight) -> (Style, Vec<String>) {
    let style = if flight.torn > 0 { Style::Torn } else { Style::Plain };
    let stored = flight.stored;
    let acknowledged = flight.acknowledged.map_or("-", |yes| if yes { "yes" } else { "no" });
    let mut cells: Vec<_> =
        [stored.flight_id, stored.start_page, stored.pages, flight.records, flight.torn].map(|number| number.to_string()).into();
    cells.push(acknowledged.to_string());
    (style, cells)
}

/// Words and then pages, as many to a line as fit.
fn listed(words: &str, pages: &[u32], out: &mut Out) -> io::Result<()> {
    let mut line = words.to_string();
    for span in spans(pages) {
        if line.len() + span.len() > 110 {
            out.line(Style::Torn, &line)?;
            line = " ".repeat(9);
        }
        line += &format!(" {span},");
    }
    out.line(Style::Torn, line.trim_end_matches(','))
}

fn torn_lines(log: &Log, torn: &[u32], out: &mut Out) -> io::Result<()> {
    if torn.is_empty() {
        return out.line(Style::Plain, "torn      none among the used pages");
    }
    listed(&format!("torn      {}:", counted(torn.len(), "page")), torn, out)?;
    let blank = torn.iter().filter(|&&index| matches!(log.pages.get(index as usize), Some(Page::Blank(_)))).count();
    if blank > 0 {
        out.line(Style::Torn, &format!("          of these blank, below the scan's page: {blank}"))?;
    }
    Ok(())
}

/// The pages from the scan's next page on that are not blank: those that the halving did not see.
fn beyond_lines(log: &Log, out: &mut Out) -> io::Result<()> {
    let used = |&(_, page): &(u32, Page)| !matches!(page, Page::Blank(_));
    let beyond: Vec<_> = log.range(log.scan.next_page..log.layout.log_page_count).filter(used).map(|(index, _)| index).collect();
    if beyond.is_empty() {
        return Ok(());
    }
    listed(&format!("beyond    not blank, though behind the scan's next page: {}:", counted(beyond.len(), "page")), &beyond, out)
}
