//! The flights of a log.

use std::ops::Range;

use stipeflute::{Refusal, Refused, StoredFlight};

use crate::log::{Log, Page};
use crate::stop::Stop;

/// A flight as the search finds it, with what its pages hold.
#[derive(Clone, Copy, Debug)]
pub struct Flight {
    pub stored: StoredFlight,
    /// The records of its whole pages.
    pub records: u32,
    /// Its pages that don't decode.
    pub torn: u32,
    /// Whether a host has acknowledged it; none where the ledger has no bit for it.
    pub acknowledged: Option<bool>,
}

/// The flights below the scan's page, in page order. Where a used page has no flight or flights fall the search need not find what a
/// reading of all pages does, so this is refused 7, as the census does.
pub fn of(log: &Log) -> Result<Vec<Flight>, Stop> {
    numbers(log)?.into_iter().map(|number| flight(log, number)).collect()
}

/// One flight; refused 7 as `of`, and 12 where the search finds none.
pub fn one(log: &Log, number: u32) -> Result<Flight, Stop> {
    numbers(log)?;
    flight(log, number)
}

/// Each page's flight where it differs from that of the page before it.
fn numbers(log: &Log) -> Result<Vec<u32>, Stop> {
    let mut numbers: Vec<u32> = Vec::new();
    for index in 0..log.scan.next_page {
        let before = numbers.last().copied();
        match (log.page_flight(index)?, before) {
            (None, _) => return Err(corrupt(format!("log page {index} is used and has no flight, so no table of flights is made"))),
            (Some(number), Some(before)) if number < before => {
                let what = format!("flights fall at log page {index}, from {before} to {number}, so no table of flights is made");
                return Err(corrupt(what));
            }
            (Some(number), _) if before != Some(number) => numbers.push(number),
            _ => {}
        }
    }
    Ok(numbers)
}

fn corrupt(why: String) -> Stop {
    let refused = Refused { refusal: Refusal::Corrupt, fault: 0 };
    Stop::Refused { refused, why: why + "; `pages` lists every page" }
}

fn flight(log: &Log, number: u32) -> Result<Flight, Stop> {
    let Some(stored) = log.find(number)? else {
        let refused = Refused { refusal: Refusal::NoSuchFlight, fault: 0 };
        let foreign = if log.foreign() { ", since the log is foreign" } else { "" };
        let why = format!("the search finds no flight {number} in the first {} log pages{foreign}", log.scan.next_page);
        return Err(Stop::Refused { refused, why });
    };
    let (mut records, mut torn) = (0, 0);
    for (_, page) in log.range(pages_of(stored)) {
        match page {
            Page::Whole(page) => records += u32::from(page.record_count),
            Page::Blank(_) | Page::Torn(_) => torn += 1,
        }
    }
    Ok(Flight { stored, records, torn, acknowledged: log.acknowledged(number)? })
}

/// How many of these flights a host has acknowledged.
pub fn acknowledged(flights: &[Flight]) -> usize {
    flights.iter().filter(|flight| flight.acknowledged == Some(true)).count()
}

/// The log pages of a flight.
pub fn pages_of(stored: StoredFlight) -> Range<u32> {
    stored.start_page..stored.start_page.saturating_add(stored.pages)
}
