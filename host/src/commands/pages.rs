//! `pages`: the log page by page.

use stipeflute::Refused;

use super::Command;
use crate::dump::Dump;
use crate::json::{self, Head, Json, Table};
use crate::log::{Log, Page};
use crate::out::{Out, Style};
use crate::request::Request;
use crate::stop::Stop;
use crate::words::{refusal, sentence};

pub const COMMAND: Command = Command { name: "pages", help: include_str!("../help/pages.txt"), words: 3, json: true, run };

fn run(request: &Request, out: &mut Out) -> Result<(), Stop> {
    let (from, to) = (request.number(1, "FROM")?, request.number(2, "TO")?);
    if let (Some(from), Some(to)) = (from, to)
        && to < from
    {
        return Err(request.usage("TO is below FROM"));
    }
    let dump = Dump::open(&request.source(0))?;
    let log = Log::of(&dump)?;
    let last = log.layout.log_page_count - 1;
    let (from, to) = (from.unwrap_or(0), to.unwrap_or(last));
    let highest = from.max(to);
    let past = |refused| Stop::Refused { refused, why: format!("log page {highest} lies past the log, whose last page is {last}") };
    if let Err(stop) = log.page_flight(highest).map_err(past) {
        return json::stopped(request, &dump, &log, stop, out);
    }
    let rows = (from..=to).map(|index| Row::of(&log, index)).collect::<Result<Vec<_>, _>>()?;
    if request.json {
        let torn = log.torn(from..to + 1);
        let mut table = Table::begin(&Head { request, dump: &dump, log: &log, torn: &torn, refused: None }, out)?;
        for row in &rows {
            table.row(row.json())?;
        }
        Ok(table.end()?)
    } else {
        let head = ["page", "address", "state", "flight", "sequence", "records", "note"];
        let rows: Vec<_> = rows.iter().map(|row| row.words(&log)).collect();
        Ok(out.table(&head, &rows)?)
    }
}

struct Row {
    index: u32,
    address: u32,
    page: Page,
    /// Of a used page: the flight that it counts with in the search, if any.
    counts: Option<Option<u32>>,
}

impl Row {
    fn of(log: &Log, index: u32) -> Result<Row, Refused> {
        let (address, _) = log.bytes(index)?;
        let counts = if log.used(index) { Some(log.page_flight(index)?) } else { None };
        Ok(Row { index, address, page: log.page(index)?, counts })
    }

    fn state(&self) -> &'static str {
        match self.page {
            Page::Whole(_) => "whole",
            Page::Blank(_) => "blank",
            Page::Torn(_) => "torn",
        }
    }

    fn json(&self) -> Vec<(&'static str, Json)> {
        let whole = if let Page::Whole(metadata) = self.page { Some(metadata) } else { None };
        let refused = if let Page::Blank(refusal) | Page::Torn(refusal) = self.page { Json::from(refusal) } else { Json::Null };
        vec![
            ("page", self.index.into()),
            ("address", self.address.into()),
            ("state", self.state().into()),
            ("used", self.counts.is_some().into()),
            ("flight", whole.map(|page| page.flight_id).into()),
            ("sequence", whole.map(|page| page.page_sequence).into()),
            ("records", whole.map(|page| u32::from(page.record_count)).into()),
            ("counts_with", self.counts.flatten().into()),
            ("refused", refused),
        ]
    }

    fn words(&self, log: &Log) -> (Style, Vec<String>) {
        let style = match self.page {
            Page::Whole(_) => Style::Plain,
            Page::Blank(_) if self.counts.is_none() => Style::Blank,
            Page::Blank(_) | Page::Torn(_) => Style::Torn,
        };
        let cells = match self.page {
            Page::Whole(page) => [page.flight_id, page.page_sequence, page.record_count.into()].map(|number| number.to_string()),
            Page::Blank(_) | Page::Torn(_) => ["-"; 3].map(str::to_string),
        };
        let mut row = vec![self.index.to_string(), self.address.to_string(), format!("{:<5}", self.state())];
        row.extend(cells);
        row.push(self.note(log));
        (style, row)
    }

    fn note(&self, log: &Log) -> String {
        let mut notes = Vec::new();
        if self.index == log.scan.next_page && !log.foreign() {
            notes.push("the scan's next page".to_string());
        }
        match self.page {
            Page::Torn(why) => notes.push(format!("refused {}: {}", refusal(why), sentence(why))),
            Page::Blank(_) if self.counts.is_some() => notes.push("blank below the scan's next page, and so torn".to_string()),
            Page::Whole(_) | Page::Blank(_) => {}
        }
        match self.counts {
            Some(Some(flight)) if !matches!(self.page, Page::Whole(_)) => notes.push(format!("counts with flight {flight}")),
            Some(None) => notes.push("counts with no flight".to_string()),
            _ => {}
        }
        notes.join("; ")
    }
}
