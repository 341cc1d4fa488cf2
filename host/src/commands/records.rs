//! `records`: the records of a flight as CSV.

use stipeflute::{FlightRecord, Refused, record_from_page};

use super::Command;
use crate::dump::Dump;
use crate::flights;
use crate::json::{self, Head, Json, Table};
use crate::log::{Log, Page};
use crate::out::Out;
use crate::request::Request;
use crate::stop::Stop;
use crate::words::{counted, spans};

pub const COMMAND: Command = Command { name: "records", help: include_str!("../help/records.txt"), words: 2, json: true, run };

/// The columns: where a record stands, then its fields, as the C header names them.
const COLUMNS: [&str; 24] = [
    "page",
    "sequence",
    "index",
    "timestamp_us",
    "control_sequence",
    "imu_sequence",
    "flags",
    "raw_gyro_dps10_0",
    "raw_gyro_dps10_1",
    "raw_gyro_dps10_2",
    "filtered_gyro_dps10_0",
    "filtered_gyro_dps10_1",
    "filtered_gyro_dps10_2",
    "command_dps10_0",
    "command_dps10_1",
    "command_dps10_2",
    "pid_0",
    "pid_1",
    "pid_2",
    "throttle",
    "motors_0",
    "motors_1",
    "motors_2",
    "motors_3",
];

fn run(request: &Request, out: &mut Out) -> Result<(), Stop> {
    let Some(number) = request.number(1, "FLIGHT")? else { return Err(request.usage("a DUMP and a FLIGHT are needed")) };
    let dump = Dump::open(&request.source(0))?;
    let log = Log::of(&dump)?;
    let flight = match flights::one(&log, number) {
        Ok(flight) => flight,
        Err(stop) => return json::stopped(request, &dump, &log, stop, out),
    };
    let span = flights::pages_of(flight.stored);
    let torn = log.torn(span.clone());
    let rows = span.flat_map(|index| rows_of(&log, index));
    if request.json {
        let mut table = Table::begin(&Head { request, dump: &dump, log: &log, torn: &torn, refused: None }, out)?;
        for row in rows {
            table.row(COLUMNS.into_iter().zip(row?.map(Json::Number)).collect())?;
        }
        table.end()?;
    } else {
        out.text(&(COLUMNS.join(",") + "\n"))?;
        for row in rows {
            out.text(&(row?.map(|value| value.to_string()).join(",") + "\n"))?;
        }
    }
    if !torn.is_empty() {
        let (count, pages) = (counted(torn.len(), "page"), spans(&torn).join(", "));
        eprintln!("stipeflute: {count} of flight {number} not listed, since not decoded: {pages}");
    }
    Ok(())
}

/// The records of a page, none where it does not decode.
fn rows_of(log: &Log, index: u32) -> Vec<Result<[i64; 24], Refused>> {
    let Ok(Page::Whole(metadata)) = log.page(index) else { return Vec::new() };
    let row = |at: u32| {
        let record = record_from_page(log.bytes(index)?.1, at)?;
        Ok(cells([index, metadata.page_sequence, at], record))
    };
    (0..metadata.record_count.into()).map(row).collect()
}

fn cells(place: [u32; 3], record: FlightRecord) -> [i64; 24] {
    let heads = [record.timestamp_us, record.control_sequence, record.imu_sequence, record.flags.into()];
    let signed = [record.raw_gyro_dps10, record.filtered_gyro_dps10, record.command_dps10, record.pid];
    let mut cells = [0; 24];
    let values = place.into_iter().chain(heads).map(i64::from);
    let values = values.chain(signed.into_iter().flatten().map(i64::from));
    let values = values.chain([record.throttle].into_iter().chain(record.motors).map(i64::from));
    for (cell, value) in cells.iter_mut().zip(values) {
        *cell = value;
    }
    cells
}
