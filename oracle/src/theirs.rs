//! The Rust's answers, laid into the reply and the row that include/stipeflute.h gives each call: the same arguments as in `ours`.
//!
//! What answers is always a function of the nine files. Here stand the tests that document 01 adds in front of it (5, then 17), the
//! numbers of its errors, and the row.

use crate::blackbox::{self, FlightRecord, PageError, RECORD_LEN};
use crate::images;
use crate::layout::{StorageLayout, StorageReadError};
use crate::life::{Board, Next, Op, Outcome, PageWritten, Programs, State, program};
use crate::log_sync::{self, AckRefusal, LogSyncError, StoredFlight};
use crate::nor_storage::NorStorage;
use crate::records::{self, AssembleError, PageAssembler};
use crate::sync_ledger::{self, LedgerError, LedgerHeader, MarkStep};
use std::string::String;
use std::vec::Vec;

/// A refusal's number, and the fault byte for 6.
pub struct Refused(u8, u8);

const DEVICE: u8 = 6;
const CORRUPT: Refused = Refused(7, 0);
const OUT_OF_RANGE: Refused = Refused(8, 0);

type Told = Result<Vec<u8>, Refused>;

/// The row is written whole where nothing is refused.
fn tell(answer: &mut [u8], told: Told) -> u32 {
    match told {
        Ok(row) => {
            answer.copy_from_slice(&row);
            0
        }
        Err(Refused(number, fault)) => u32::from(number) | u32::from(fault) << 8,
    }
}

fn layout_of(capacity_bytes: u32) -> Result<StorageLayout, Refused> {
    StorageLayout::new(capacity_bytes).ok_or(Refused(5, 0))
}

/// Refused 17 unless each length is the one it has to be.
fn lengths(pairs: &[(usize, usize)]) -> Result<(), Refused> {
    if pairs.iter().all(|(found, wanted)| found == wanted) { Ok(()) } else { Err(Refused(17, 0)) }
}

/// 5, then 17.
fn on_image(capacity_bytes: u32, image: &[u8], others: &[(usize, usize)]) -> Result<StorageLayout, Refused> {
    let layout = layout_of(capacity_bytes)?;
    lengths(&[(image.len(), capacity_bytes as usize)])?;
    lengths(others)?;
    Ok(layout)
}

fn on_store(capacity_bytes: u32, image: &[u8], faults: &[u8], answer: (usize, usize)) -> Result<StorageLayout, Refused> {
    on_image(capacity_bytes, image, &[(faults.len(), capacity_bytes as usize / 256), answer])
}

/// Reads of an image: the fault byte that stands for the address, or the bytes.
pub fn reader<'a>(image: &'a [u8], faults: &'a [u8]) -> impl FnMut(u32, &mut [u8]) -> Result<(), u8> + 'a {
    move |address, output| {
        let at = address as usize;
        match faults[at / 256] {
            0 => output.copy_from_slice(&image[at..at + output.len()]),
            fault => return Err(fault),
        }
        Ok(())
    }
}

impl From<LogSyncError<u8>> for Refused {
    fn from(error: LogSyncError<u8>) -> Self {
        match error {
            LogSyncError::Device(fault) => Refused(DEVICE, fault),
            LogSyncError::Corrupt => CORRUPT,
        }
    }
}

impl From<LedgerError<u8>> for Refused {
    fn from(error: LedgerError<u8>) -> Self {
        match error {
            LedgerError::OutOfRange => OUT_OF_RANGE,
            LedgerError::Device(fault) => Refused(DEVICE, fault),
        }
    }
}

impl From<StorageReadError<u8>> for Refused {
    fn from(error: StorageReadError<u8>) -> Self {
        match error {
            StorageReadError::InvalidLayout => unreachable!("the scan reads pages of the log alone"),
            StorageReadError::Device(fault) => Refused(DEVICE, fault),
        }
    }
}

impl From<PageError> for Refused {
    fn from(error: PageError) -> Self {
        Refused(
            match error {
                PageError::InvalidRecordCount => 1,
                PageError::InvalidMagic => 2,
                PageError::UnsupportedVersion => 3,
                PageError::CrcMismatch => 4,
            },
            0,
        )
    }
}

impl From<AssembleError> for Refused {
    fn from(error: AssembleError) -> Self {
        Refused(
            match error {
                AssembleError::NotRecording => 9,
                AssembleError::PageNotConsumed => 10,
                AssembleError::Format => 11,
            },
            0,
        )
    }
}

impl From<AckRefusal> for Refused {
    fn from(refusal: AckRefusal) -> Self {
        Refused(
            match refusal {
                AckRefusal::NoSuchFlight => 12,
                AckRefusal::Recording => 13,
                AckRefusal::LengthChanged => 14,
                AckRefusal::LedgerFull => 15,
            },
            0,
        )
    }
}

fn word(number: u32) -> Vec<u8> {
    number.to_le_bytes().to_vec()
}

fn words(numbers: &[u32]) -> Vec<u8> {
    numbers.iter().flat_map(|number| number.to_le_bytes()).collect()
}

/// A flag and a number.
fn option(number: Option<u32>) -> Vec<u8> {
    let mut row = vec![u8::from(number.is_some())];
    row.extend_from_slice(&number.unwrap_or(0).to_le_bytes());
    row
}

fn flight_words(flight: StoredFlight) -> Vec<u8> {
    words(&[flight.flight_id, flight.start_page, flight.pages])
}

fn flight_option(flight: Option<StoredFlight>) -> Vec<u8> {
    let mut row = vec![u8::from(flight.is_some())];
    row.extend(flight.map_or(vec![0; 12], flight_words));
    row
}

fn record_bytes(record: FlightRecord) -> Vec<u8> {
    let mut bytes = [0u8; RECORD_LEN];
    record.encode(&mut bytes);
    bytes.to_vec()
}

// ---- checksum, records and pages

pub fn crc32(bytes: &[u8], answer: &mut [u8]) -> u32 {
    let told = lengths(&[(answer.len(), 4)]).map(|()| word(blackbox::crc32(bytes)));
    tell(answer, told)
}

pub fn record_encode(record: FlightRecord, answer: &mut [u8]) -> u32 {
    let told = lengths(&[(answer.len(), 48)]).map(|()| record_bytes(record));
    tell(answer, told)
}

pub fn record_decode(input: &[u8], answer: &mut [u8]) -> u32 {
    let told = lengths(&[(answer.len(), 48), (input.len(), 48)]);
    tell(answer, told.map(|()| record_bytes(FlightRecord::decode(input.try_into().unwrap()))))
}

pub fn encode_page(flight_id: u32, page_sequence: u32, rows: &[u8], count: u32, answer: &mut [u8]) -> u32 {
    let told = lengths(&[(answer.len(), 256), (rows.len(), 240)]).and_then(|()| {
        // Past the fifth row the records that are too many: any will do.
        let records: Vec<FlightRecord> =
            (0..count.min(9) as usize).map(|i| FlightRecord::decode(rows[i % 5 * 48..][..48].try_into().unwrap())).collect();
        Ok(blackbox::encode_page(flight_id, page_sequence, &records)?.to_vec())
    });
    tell(answer, told)
}

pub fn decode_page(page: &[u8], answer: &mut [u8]) -> u32 {
    let told = lengths(&[(answer.len(), 9), (page.len(), 256)]).and_then(|()| {
        let metadata = blackbox::decode_page(page.try_into().unwrap())?;
        let mut row = words(&[metadata.flight_id, metadata.page_sequence]);
        row.push(metadata.record_count);
        Ok(row)
    });
    tell(answer, told)
}

pub fn record_from_page(page: &[u8], index: u32, answer: &mut [u8]) -> u32 {
    let told = lengths(&[(answer.len(), 48), (page.len(), 256)])
        .and_then(|()| Ok(record_bytes(blackbox::record_from_page(page.try_into().unwrap(), index as usize)?)));
    tell(answer, told)
}

pub fn scratch_test_page(answer: &mut [u8]) -> u32 {
    let told = lengths(&[(answer.len(), 256)]).map(|()| records::scratch_test_page().to_vec());
    tell(answer, told)
}

// ---- layout

fn of_layout(capacity_bytes: u32, answer: &mut [u8], len: usize, row: impl FnOnce(StorageLayout) -> Vec<u8>) -> u32 {
    let told = layout_of(capacity_bytes).and_then(|layout| {
        lengths(&[(answer.len(), len)])?;
        Ok(row(layout))
    });
    tell(answer, told)
}

pub fn storage_layout(capacity_bytes: u32, answer: &mut [u8]) -> u32 {
    of_layout(capacity_bytes, answer, 20, |layout| {
        let [a, b] = layout.config_slot_addresses;
        words(&[layout.capacity_bytes, a, b, layout.log_start_address, layout.log_page_count])
    })
}

pub fn log_page_address(capacity_bytes: u32, page_index: u32, answer: &mut [u8]) -> u32 {
    of_layout(capacity_bytes, answer, 5, |layout| option(layout.log_page_address(page_index)))
}

pub fn log_sector_count(capacity_bytes: u32, answer: &mut [u8]) -> u32 {
    of_layout(capacity_bytes, answer, 4, |layout| word(layout.log_sector_count()))
}

pub fn sync_ledger_address(capacity_bytes: u32, answer: &mut [u8]) -> u32 {
    of_layout(capacity_bytes, answer, 4, |layout| word(layout.sync_ledger_address()))
}

pub fn log_erase_sector_address(capacity_bytes: u32, step: u32, answer: &mut [u8]) -> u32 {
    of_layout(capacity_bytes, answer, 5, |layout| option(layout.log_erase_sector_address(step)))
}

// ---- store: NorStorage is not among the files, so these answer from document 01's sentences alone

/// The store with a device's reply byte.
struct Replying<'a> {
    image: &'a mut [u8],
    keep: &'a [u8],
    reply: u8,
}

fn in_one_page(image: &[u8], address: u32, len: usize) -> Result<(), Refused> {
    let at = address as usize;
    if at <= image.len() && len <= image.len() - at && at % 256 + len <= 256 { Ok(()) } else { Err(Refused(17, 0)) }
}

impl NorStorage for Replying<'_> {
    type Error = Refused;

    fn read(&mut self, _address: u32, _output: &mut [u8]) -> Result<(), Refused> {
        unreachable!("a mark step reads nothing")
    }

    fn page_program(&mut self, address: u32, bytes: &[u8]) -> Result<(), Refused> {
        in_one_page(self.image, address, bytes.len())?;
        program(self.image, address, bytes, if self.reply == 0 { &[] } else { self.keep });
        if self.reply == 0 { Ok(()) } else { Err(Refused(DEVICE, self.reply)) }
    }

    fn erase_sector_4k(&mut self, address: u32) -> Result<(), Refused> {
        let at = address as usize;
        if at >= self.image.len() || at % 4096 != 0 {
            return Err(Refused(17, 0));
        }
        if self.reply != 0 {
            return Err(Refused(DEVICE, self.reply));
        }
        self.image[at..at + 4096].fill(0xff);
        Ok(())
    }

    fn busy(&mut self) -> Result<bool, Refused> {
        unreachable!("a mark step asks nothing")
    }

    fn write_back_pending(&self) -> bool {
        unreachable!("a mark step asks nothing")
    }

    fn flush(&mut self) -> Result<(), Refused> {
        unreachable!("a mark step asks nothing")
    }
}

fn nothing(told: Result<(), Refused>) -> u32 {
    tell(&mut [], told.map(|()| Vec::new()))
}

pub fn read(capacity_bytes: u32, image: &[u8], faults: &[u8], address: u32, output: &mut [u8]) -> u32 {
    let told = on_store(capacity_bytes, image, faults, (0, 0)).and_then(|_| {
        in_one_page(image, address, output.len())?;
        let mut bytes = vec![0; output.len()];
        // At the image's end a read of no bytes has no page, and no fault byte.
        if (address as usize) < image.len() {
            reader(image, faults)(address, &mut bytes).map_err(|fault| Refused(DEVICE, fault))?;
        }
        Ok(bytes)
    });
    tell(output, told)
}

pub fn page_program(capacity_bytes: u32, image: &mut [u8], address: u32, target: &[u8], keep: &[u8], reply: u8) -> u32 {
    let told = on_image(capacity_bytes, image, &[(keep.len(), 256)]);
    nothing(told.and_then(|_| Replying { image, keep, reply }.page_program(address, target)))
}

pub fn erase_sector_4k(capacity_bytes: u32, image: &mut [u8], address: u32, reply: u8) -> u32 {
    let told = on_image(capacity_bytes, image, &[]);
    nothing(told.and_then(|_| Replying { image, keep: &[], reply }.erase_sector_4k(address)))
}

// ---- scan and search

pub fn scan_log(capacity_bytes: u32, image: &[u8], faults: &[u8], answer: &mut [u8]) -> u32 {
    let told = on_store(capacity_bytes, image, faults, (answer.len(), 9)).and_then(|layout| {
        let (next_page, next_flight, writable) = records::scan_log(layout, reader(image, faults))?;
        let mut row = words(&[next_page, next_flight]);
        row.push(u8::from(writable));
        Ok(row)
    });
    tell(answer, told)
}

/// Document 02's P1 read a second time: the Rust has no such call. The pages that its scan reads last are the last used page and, if that one
/// doesn't decode, the page before it.
pub fn explain(capacity_bytes: u32, image: &[u8], faults: &[u8], answer: &mut [u8]) -> u32 {
    let told = on_store(capacity_bytes, image, faults, (answer.len(), 11)).and_then(|layout| {
        let (mut read, mut pages) = (reader(image, faults), Vec::new());
        let (next_page, _, writable) = records::scan_log(layout, |address, page| {
            pages.push((address - layout.log_start_address) / 256);
            read(address, page)
        })?;
        let refusal = |page: u32| {
            let at = (layout.log_start_address + 256 * page) as usize;
            blackbox::decode_page(image[at..at + 256].try_into().unwrap()).err().map(Refused::from)
        };
        let reason = |reason: u8, refusals: [u8; 2], pages: [u32; 2]| [&[reason, refusals[0], refusals[1]][..], &words(&pages)].concat();
        if writable {
            return Ok(reason(0, [0; 2], [0; 2]));
        }
        if next_page != 0 {
            return Ok(reason(3, [0; 2], [0; 2]));
        }
        if let Some(first) = refusal(0) {
            return Ok(reason(1, [first.0, 0], [0; 2]));
        }
        let [.., later, earlier] = pages[..] else { unreachable!("a foreign log whose page 0 decodes has two pages read") };
        let refused = |page| refusal(page).expect("a foreign log whose page 0 decodes ends in two that don't").0;
        Ok(reason(2, [refused(earlier), refused(later)], [earlier, later]))
    });
    tell(answer, told)
}

pub fn page_flight_id(capacity_bytes: u32, image: &[u8], faults: &[u8], index: u32, answer: &mut [u8]) -> u32 {
    let told = on_store(capacity_bytes, image, faults, (answer.len(), 5)).and_then(|layout| {
        let mut read = reader(image, faults);
        let flight = records::page_flight_id(index, |index, page| {
            let address = layout.log_page_address(index).ok_or(CORRUPT)?;
            read(address, page).map_err(|fault| Refused(DEVICE, fault))
        })?;
        Ok(option(flight))
    });
    tell(answer, told)
}

pub fn find_flight(capacity_bytes: u32, image: &[u8], faults: &[u8], used_pages: u32, flight_id: u32, answer: &mut [u8]) -> u32 {
    let told = on_store(capacity_bytes, image, faults, (answer.len(), 13))
        .and_then(|layout| Ok(flight_option(log_sync::find_flight(layout, &mut reader(image, faults), used_pages, flight_id)?)));
    tell(answer, told)
}

/// The first step of walk_flights, before it asks the ledger.
pub fn older_flight(capacity_bytes: u32, image: &[u8], faults: &[u8], end: u32, answer: &mut [u8]) -> u32 {
    let told = on_store(capacity_bytes, image, faults, (answer.len(), 13)).and_then(|layout| {
        if end == 0 {
            return Ok(flight_option(None));
        }
        let mut read = reader(image, faults);
        let flight_id = log_sync::reached::flight_id_at(layout, &mut read, end - 1)?;
        let start_page = log_sync::reached::lower_bound(layout, &mut read, end, flight_id)?;
        Ok(flight_option(Some(StoredFlight { flight_id, start_page, pages: end - start_page })))
    });
    tell(answer, told)
}

// ---- ledger

pub fn read_header(capacity_bytes: u32, image: &[u8], faults: &[u8], answer: &mut [u8]) -> u32 {
    let told = on_store(capacity_bytes, image, faults, (answer.len(), 1)).and_then(|layout| {
        let header = sync_ledger::read_header(layout, &mut reader(image, faults)).map_err(|fault| Refused(DEVICE, fault))?;
        Ok(vec![match header {
            LedgerHeader::Blank => 0,
            LedgerHeader::Valid => 1,
            LedgerHeader::Foreign => 2,
        }])
    });
    tell(answer, told)
}

pub fn bit_location(capacity_bytes: u32, flight_id: u32, answer: &mut [u8]) -> u32 {
    let told = layout_of(capacity_bytes).and_then(|layout| {
        lengths(&[(answer.len(), 5)])?;
        let (address, mask) = sync_ledger::bit_location(layout, flight_id).ok_or(OUT_OF_RANGE)?;
        let mut row = word(address);
        row.push(mask);
        Ok(row)
    });
    tell(answer, told)
}

pub fn is_synced(capacity_bytes: u32, image: &[u8], faults: &[u8], flight_id: u32, answer: &mut [u8]) -> u32 {
    let told = on_store(capacity_bytes, image, faults, (answer.len(), 1))
        .and_then(|layout| Ok(vec![u8::from(sync_ledger::is_synced(layout, &mut reader(image, faults), flight_id)?)]));
    tell(answer, told)
}

pub fn next_mark_step(capacity_bytes: u32, image: &[u8], faults: &[u8], flight_id: u32, answer: &mut [u8]) -> u32 {
    let told = on_store(capacity_bytes, image, faults, (answer.len(), 6)).and_then(|layout| {
        let step = sync_ledger::next_mark_step(layout, &mut reader(image, faults), flight_id)?;
        let (kind, address, value) = match step {
            MarkStep::EraseLedger { address } => (0, address, 0),
            MarkStep::ProgramHeader { address } => (1, address, 0),
            MarkStep::ProgramBit { address, value } => (2, address, value),
            MarkStep::Done => (3, 0, 0),
        };
        let mut row = vec![kind];
        row.extend(word(address));
        row.push(value);
        Ok(row)
    });
    tell(answer, told)
}

#[allow(clippy::too_many_arguments)]
pub fn start_mark_step(capacity_bytes: u32, image: &mut [u8], kind: u8, address: u32, value: u8, keep: &[u8], reply: u8) -> u32 {
    let step = match kind {
        0 => MarkStep::EraseLedger { address },
        1 => MarkStep::ProgramHeader { address },
        2 => MarkStep::ProgramBit { address, value },
        _ => MarkStep::Done,
    };
    let told = on_image(capacity_bytes, image, &[(keep.len(), 256)]);
    nothing(told.and_then(|_| crate::storage_maintenance::reached::start_mark_step(&mut Replying { image, keep, reply }, step)))
}

// ---- log sync

fn recorded(is_recording: u8, recording: u32) -> Option<u32> {
    (is_recording != 0).then_some(recording)
}

pub fn unsynced_flights(
    capacity_bytes: u32,
    image: &[u8],
    faults: &[u8],
    used_pages: u32,
    is_recording: u8,
    recording: u32,
    answer: &mut [u8],
) -> u32 {
    let told = on_store(capacity_bytes, image, faults, (answer.len(), 98)).and_then(|layout| {
        let recording = recorded(is_recording, recording);
        let (listed, more) = log_sync::unsynced_flights(layout, &mut reader(image, faults), used_pages, recording)?;
        let mut row = vec![listed.len() as u8, u8::from(more)];
        listed.iter().for_each(|flight| row.extend(flight_words(flight)));
        row.resize(98, 0);
        Ok(row)
    });
    tell(answer, told)
}

pub fn all_synced(
    capacity_bytes: u32,
    image: &[u8],
    faults: &[u8],
    used_pages: u32,
    is_recording: u8,
    recording: u32,
    answer: &mut [u8],
) -> u32 {
    let told = on_store(capacity_bytes, image, faults, (answer.len(), 1)).and_then(|layout| {
        let recording = recorded(is_recording, recording);
        Ok(vec![u8::from(log_sync::all_synced(layout, &mut reader(image, faults), used_pages, recording)?)])
    });
    tell(answer, told)
}

#[allow(clippy::too_many_arguments)]
pub fn check_ack(
    capacity_bytes: u32,
    image: &[u8],
    faults: &[u8],
    used_pages: u32,
    is_recording: u8,
    recording: u32,
    flight_id: u32,
    pages: u32,
) -> u32 {
    nothing(on_store(capacity_bytes, image, faults, (0, 0)).and_then(|layout| {
        let recording = recorded(is_recording, recording);
        let checked = log_sync::check_ack(layout, &mut reader(image, faults), used_pages, recording, flight_id, pages)?;
        Ok(checked?)
    }))
}

// ---- lines

/// A text behind its length, and zeros up to `len`.
fn text_row(text: &str, len: usize) -> Vec<u8> {
    let mut row = word(text.len() as u32);
    row.extend_from_slice(text.as_bytes());
    row.resize(len, 0);
    row
}

pub fn unsynced_lines(flights: &[u8], count: u32, more: u8, answer: &mut [u8]) -> u32 {
    let told = lengths(&[(answer.len(), 476), (flights.len(), 96)]).and_then(|()| {
        if count > 8 {
            return Err(Refused(17, 0));
        }
        let number = |at: usize| u32::from_le_bytes(flights[at..at + 4].try_into().unwrap());
        let listed: Vec<StoredFlight> = (0..count as usize)
            .map(|i| StoredFlight { flight_id: number(12 * i), start_page: number(12 * i + 4), pages: number(12 * i + 8) })
            .collect();
        let mut text = String::new();
        let whole = log_sync::emit_unsynced_lines(&listed, more != 0, |line| {
            text += line;
            true
        });
        assert!(whole, "every line fits 56 bytes");
        Ok(text_row(&text, 476))
    });
    tell(answer, told)
}

pub fn ack_response(number: u8, answer: &mut [u8]) -> u32 {
    let told = lengths(&[(answer.len(), 60)]).map(|()| {
        let text = match number {
            12 => AckRefusal::NoSuchFlight.response(),
            13 => AckRefusal::Recording.response(),
            14 => AckRefusal::LengthChanged.response(),
            15 => AckRefusal::LedgerFull.response(),
            _ => "",
        };
        text_row(text, 60)
    });
    tell(answer, told)
}

// ---- assembler

pub const ASSEMBLE_ROW: usize = 54;

pub fn assemble(script: &[u8], answer: &mut [u8]) -> u32 {
    let told = lengths(&[(answer.len(), 261), (script.len() % ASSEMBLE_ROW, 0)]).and_then(|()| {
        let mut assembler = PageAssembler::new();
        let mut last = Ok(vec![0; 261]);
        for row in script.chunks(ASSEMBLE_ROW) {
            last = assemble_row(&mut assembler, row);
        }
        last
    });
    tell(answer, told)
}

fn assemble_row(assembler: &mut PageAssembler, row: &[u8]) -> Told {
    let flag = row[1] != 0;
    let mut told = vec![0; 261];
    match row[0] {
        1 => assembler.start(u32::from_le_bytes(row[2..6].try_into().unwrap()), flag),
        2 => told[0] = u8::from(assembler.push(FlightRecord::decode(row[6..54].try_into().unwrap()))?),
        3 => told[0] = u8::from(assembler.stop()?),
        4 => {
            if let Some(page) = assembler.take_ready_page() {
                told[0] = 1;
                told[5..].copy_from_slice(&page);
            }
        }
        5 => told[..5].copy_from_slice(&option(assembler.unfinished_flight(flag))),
        _ => told[0] = u8::from(assembler.recording()),
    }
    Ok(told)
}

// ---- the writer's player

pub const SCRIPT_ROW: usize = 288;

pub const PLAYED_ROW: usize = 40;

/// An operation as a row of a script.
pub fn script_row(op: &Op) -> [u8; SCRIPT_ROW] {
    let mut row = [0u8; SCRIPT_ROW];
    row[..2].copy_from_slice(&(SCRIPT_ROW as u16).to_le_bytes());
    let mut numbers = [0u32; 2];
    match op {
        Op::Offer(record) => {
            row[2] = 0;
            row[32..80].copy_from_slice(&record_bytes(*record));
        }
        Op::Drain { armed, record_while_disarmed, programs } => {
            row[2] = 1;
            row[4] = u8::from(*armed);
            row[5] = u8::from(*record_while_disarmed);
            numbers = [crate::log_writer::RECORD_DRAIN_PER_PASS, programs.succeed];
            lay_programs(&mut row, programs);
        }
        Op::WritePending { programs } => {
            row[2] = 2;
            numbers[1] = programs.succeed;
            lay_programs(&mut row, programs);
        }
        Op::PowerOn => row[2] = 3,
        Op::Recover { next_page, next_flight, writable } => {
            row[2] = 4;
            row[6] = u8::from(*writable);
            numbers = [*next_page, *next_flight];
        }
        Op::ResetAfterErase => row[2] = 5,
        Op::Flush { write_back_pending, now_ms } => {
            row[2] = 6;
            row[6] = u8::from(*write_back_pending);
            numbers = [*now_ms as u32, (*now_ms >> 32) as u32];
        }
    }
    row[8..12].copy_from_slice(&numbers[0].to_le_bytes());
    row[12..16].copy_from_slice(&numbers[1].to_le_bytes());
    row
}

fn lay_programs(row: &mut [u8; SCRIPT_ROW], programs: &Programs) {
    row[3] = match programs.next {
        Next::Busy => 0,
        Next::Fault => 1,
        Next::Cut => 2,
    };
    row[32..].copy_from_slice(&programs.keep);
}

/// What is told after an operation.
pub fn played_row(outcome: Outcome, state: State) -> [u8; PLAYED_ROW] {
    let mut row = [0u8; PLAYED_ROW];
    let mut report = [0u32; 3];
    row[0] = match outcome {
        Outcome::Done => 0,
        Outcome::Refused(number, _) => number,
        Outcome::Drained { cut, pages_written, records_dropped, write_faults } => {
            report = [pages_written, records_dropped, write_faults];
            u8::from(cut)
        }
        Outcome::Wrote(written) => match written {
            PageWritten::Nothing => 0,
            PageWritten::Written => 1,
            PageWritten::RegionFull => 2,
            PageWritten::ProgramFailed => 3,
            PageWritten::PowerCut => 4,
        },
        Outcome::Flushed(flush) => u8::from(flush),
    };
    row[1] = u8::from(state.writable);
    row[2] = u8::from(state.recording);
    row[3] = u8::from(state.unfinished.is_some());
    row[4] = u8::from(state.write_back_since_ms.is_some());
    row[5] = state.queue_len as u8;
    let numbers = [state.next_page, state.next_flight, state.unfinished.unwrap_or(0)];
    for (i, number) in report.iter().chain(&numbers).enumerate() {
        row[8 + 4 * i..12 + 4 * i].copy_from_slice(&number.to_le_bytes());
    }
    row[32..].copy_from_slice(&state.write_back_since_ms.unwrap_or(0).to_le_bytes());
    row
}

/// The operation that a row says, if the row is the bytes of one and nothing else. A drain has the Rust's limit.
pub fn script_op(row: &[u8]) -> Option<Op> {
    let number = |at: usize| u32::from_le_bytes(row[at..at + 4].try_into().unwrap());
    let programs = || {
        let next = match row[3] {
            0 => Next::Busy,
            1 => Next::Fault,
            _ => Next::Cut,
        };
        Programs { succeed: number(12), next, keep: row[32..].try_into().unwrap() }
    };
    let op = match row[2] {
        0 => Op::Offer(FlightRecord::decode(row[32..80].try_into().unwrap())),
        1 => Op::Drain { armed: row[4] != 0, record_while_disarmed: row[5] != 0, programs: programs() },
        2 => Op::WritePending { programs: programs() },
        3 => Op::PowerOn,
        4 => Op::Recover { next_page: number(8), next_flight: number(12), writable: row[6] != 0 },
        5 => Op::ResetAfterErase,
        _ => Op::Flush { write_back_pending: row[6] != 0, now_ms: u64::from(number(8)) | u64::from(number(12)) << 32 },
    };
    (script_row(&op) == row).then_some(op)
}

/// A script played from a writer before its first power-on: a row of `answer` for each of its rows.
pub fn rig(board: &mut Board, capacity_bytes: u32, image: &mut [u8], script: &[u8], answer: &mut [u8]) -> u32 {
    let told = on_image(capacity_bytes, image, &[(script.len() % SCRIPT_ROW, 0)]).and_then(|layout| {
        let ops: Option<Vec<Op>> = script.chunks(SCRIPT_ROW).map(script_op).collect();
        let ops = ops.ok_or(Refused(17, 0))?;
        lengths(&[(answer.len(), ops.len() * PLAYED_ROW)])?;
        Ok((layout, ops))
    });
    match told {
        Ok((layout, ops)) => tell(answer, Ok(play(board, layout, image, &ops))),
        Err(refused) => tell(answer, Err(refused)),
    }
}

/// The operations played from a writer before its first power-on.
pub fn play(board: &mut Board, layout: StorageLayout, image: &mut [u8], ops: &[Op]) -> Vec<u8> {
    board.power_off();
    let mut told = Vec::with_capacity(ops.len() * PLAYED_ROW);
    for op in ops {
        let outcome = board.play(layout, image, op);
        told.extend_from_slice(&played_row(outcome, board.state()));
    }
    told
}

/// An image whose reads have no faults, for the player.
pub fn without_faults(mut image: images::Image) -> images::Image {
    image.faults.fill(0);
    image
}
