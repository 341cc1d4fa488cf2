//! What stands above and below the pages.

use super::grid::WIDTH;
use super::svg::{Svg, colour};
use super::{LEFT, RIGHT};
use crate::commands::show::{ledger_line, refused_line, scan_lines};
use crate::dump::Dump;
use crate::flights::{Flight, acknowledged};
use crate::log::Log;
use crate::stop::Stop;
use crate::words::{counted, grouped, span};

/// As many flights as are listed one by one.
const LISTED: usize = 40;
const COLUMNS: usize = 2;

/// The title, the scan and the key; gives where the pages begin.
pub fn above(svg: &mut Svg, dump: &Dump, log: &Log, flights: Result<&[Flight], &Stop>) -> usize {
    let layout = log.layout;
    let pages = counted(layout.log_page_count as usize, "log page");
    let title = format!("{}: {} bytes, {pages}", short(&dump.name), grouped(layout.capacity_bytes.into()));
    svg.text([LEFT, 32], 18, " font-weight=\"bold\"", &title);
    let mut lines = scan_lines(log);
    if let Some(first) = lines.first_mut() {
        *first = format!("Scan: {first}.");
    }
    if !log.foreign() {
        lines = vec![lines.join(" ")];
    }
    lines.push(format!("Ledger: {}. {}", ledger_line(log.ledger), flights_line(flights)));
    for (at, line) in lines.iter().enumerate() {
        svg.text([LEFT, 56 + 20 * at], 13, "", line);
    }
    let y = 56 + 20 * lines.len();
    key(svg, y);
    y + 40
}

fn flights_line(flights: Result<&[Flight], &Stop>) -> String {
    match flights {
        Ok([]) => "No flight is listed.".to_string(),
        Ok(flights) => format!("{}, of which {} acknowledged.", counted(flights.len(), "flight"), acknowledged(flights)),
        Err(stop) => format!("Flights {}.", refused_line(stop)),
    }
}

/// The end of a long name.
fn short(name: &str) -> String {
    let len = name.chars().count();
    if len <= 90 { name.to_string() } else { format!("..{}", name.chars().skip(len - 88).collect::<String>()) }
}

/// What each sign means.
fn key(svg: &mut Svg, y: usize) {
    let framed = " stroke=\"#cc0000\" stroke-width=\"3\"";
    swatch(svg, [LEFT, y], &colour(0), PLAIN, "whole page, in its flight's colour");
    swatch(svg, [LEFT + 275, y], "#111111", PLAIN, "torn: neither whole nor blank");
    cross(svg, [LEFT + 275, y], "#ffffff");
    swatch(svg, [LEFT + 510, y], "#eeeeee", PLAIN, "blank");
    swatch(svg, [LEFT + 585, y], "#ffffff", PLAIN, "blank below the next page");
    cross(svg, [LEFT + 585, y], "#111111");
    swatch(svg, [LEFT + 800, y], "#eeeeee", framed, "the scan's next page");
    svg.put(format_args!("<path d=\"M{} {y}v14\" stroke=\"#111111\" stroke-width=\"2\"/>", LEFT + 987));
    svg.text([LEFT + 999, y + 12], 13, "", "a flight's first page");
}

/// A thin frame.
const PLAIN: &str = " stroke=\"#bbbbbb\"";

/// A small box and the words beside it.
fn swatch(svg: &mut Svg, [x, y]: [usize; 2], fill: &str, frame: &str, words: &str) {
    svg.put(format_args!("<rect class=\"key\" x=\"{x}\" y=\"{y}\" width=\"18\" height=\"14\" fill=\"{fill}\"{frame}/>"));
    svg.text([x + 24, y + 12], 13, "", words);
}

fn cross(svg: &mut Svg, [x, y]: [usize; 2], stroke: &str) {
    svg.put(format_args!("<path d=\"M{x} {y}m1 1l16 12m0 -12l-16 12\" stroke=\"{stroke}\"/>"));
}

/// The flights one by one where they are few; gives where the picture ends.
pub fn below(svg: &mut Svg, top: usize, flights: Result<&[Flight], &Stop>) -> usize {
    let flights = flights.unwrap_or_default();
    if flights.is_empty() {
        return top;
    }
    if flights.len() > LISTED {
        let words =
            "Flights that follow each other differ in colour; each has its number where there is room. A browser names what is pointed at.";
        svg.text([LEFT, top + 6], 13, "", words);
        return top + 24;
    }
    let column = (WIDTH + RIGHT) / COLUMNS;
    for (at, flight) in flights.iter().enumerate() {
        let (x, y) = (LEFT + at % COLUMNS * column, top + at / COLUMNS * 22);
        swatch(svg, [x, y], &colour(at), PLAIN, &listed(flight));
    }
    top + flights.len().div_ceil(COLUMNS) * 22 + 12
}

fn listed(flight: &Flight) -> String {
    let stored = flight.stored;
    let last = stored.start_page + stored.pages.saturating_sub(1);
    let mut words = format!(
        "flight {}: page{} {}, {}",
        stored.flight_id,
        if stored.pages == 1 { "" } else { "s" },
        span(stored.start_page, last),
        counted(flight.records as usize, "record")
    );
    if flight.torn > 0 {
        words += &format!(", {} torn", flight.torn);
    }
    if flight.acknowledged == Some(true) {
        words += ", acknowledged";
    }
    words
}
