//! The flight log of FerroWasp, ported and proved: safe calls of libstipeflute.a, with the names of the Rust that was ported.
//!
//! Every call answers any input. What it cannot take it refuses by a number ([`Refusal`]), and a refused call alters no lent byte, but
//! for what a failing device itself stored ([`page_program`], [`start_mark_step`]). The contracts of the calls are proved in the
//! repository's crates; this crate only lays numbers into slices and reads them back, and is tested.

pub mod ffi;

mod codec;
mod flash;
mod log;
mod sync;
mod writer;

pub use codec::{
    assemble, crc32, decode_page, encode_page, record_from_page, scratch_test_page, Assembled, AssemblerCall, FlightRecord,
    PageMetadata, FLASH_PAGE_LEN, RECORDS_PER_PAGE, RECORD_LEN,
};
pub use flash::{erase_sector_4k, page_program, read, Flash, StorageLayout};
pub use log::{explain, find_flight, older_flight, page_flight_id, scan_log, Reason, Scan, StoredFlight};
pub use sync::{
    ack_response, all_synced, bit_location, check_ack, is_synced, next_mark_step, read_header, start_mark_step, unsynced_flights,
    unsynced_lines, LedgerHeader, MarkStep, Text, Unsynced, MAX_LISTED_FLIGHTS,
};
pub use writer::{play, NextProgram, Operation, Told, ROW_LEN, TELL_LEN};

/// Why a call refused.
#[derive(Clone, Copy, Debug, Eq, PartialEq)]
#[repr(u8)]
pub enum Refusal {
    /// More than 5 records, or a record index not below the page's count.
    InvalidRecordCount = 1,
    /// Bytes 240, 241 of a page are not "FB".
    InvalidMagic = 2,
    /// Byte 242 of a page is not 1.
    UnsupportedVersion = 3,
    /// The stored checksum differs.
    CrcMismatch = 4,
    /// A capacity that `StorageLayout::new` refuses.
    InvalidLayout = 5,
    /// A read has a fault, or a program or an erase fails.
    Device = 6,
    /// A page that the search reads has no flight, or lies past the log.
    Corrupt = 7,
    /// Flight 0 or above 32,704, at the ledger.
    OutOfRange = 8,
    /// A push while no flight is recorded.
    NotRecording = 9,
    /// A push while a finished page waits.
    PageNotConsumed = 10,
    /// Encoding fails inside the assembler.
    Format = 11,
    /// An acknowledgement of flight 0 or of one not found.
    NoSuchFlight = 12,
    /// An acknowledgement of the unfinished flight.
    Recording = 13,
    /// The page count differs from the flight found.
    LengthChanged = 14,
    /// An acknowledgement above 32,704.
    LedgerFull = 15,
    /// A record offered to a queue that holds 31.
    QueueFull = 16,
    /// A slice of another length, a program across the end of a page or of the image, or no sector.
    BadLength = 17,
}

impl Refusal {
    const ALL: [Refusal; 17] = [
        Refusal::InvalidRecordCount,
        Refusal::InvalidMagic,
        Refusal::UnsupportedVersion,
        Refusal::CrcMismatch,
        Refusal::InvalidLayout,
        Refusal::Device,
        Refusal::Corrupt,
        Refusal::OutOfRange,
        Refusal::NotRecording,
        Refusal::PageNotConsumed,
        Refusal::Format,
        Refusal::NoSuchFlight,
        Refusal::Recording,
        Refusal::LengthChanged,
        Refusal::LedgerFull,
        Refusal::QueueFull,
        Refusal::BadLength,
    ];

    /// The refusal of a number from 1 to 17.
    pub fn from_number(number: u8) -> Option<Refusal> {
        Self::ALL.get(usize::from(number).checked_sub(1)?).copied()
    }

    /// Its number, from 1 to 17.
    pub const fn number(self) -> u8 {
        self as u8
    }
}

/// A refusal and, for [`Refusal::Device`], the device's fault byte; 0 for any other.
#[derive(Clone, Copy, Debug, Eq, PartialEq)]
pub struct Refused {
    pub refusal: Refusal,
    pub fault: u8,
}

/// What a call returned, taken apart.
fn reply(number: u32) -> Result<(), Refused> {
    if number == 0 {
        return Ok(());
    }
    let [refusal, fault, ..] = number.to_le_bytes();
    let refusal = Refusal::from_number(refusal).expect("a reply is 0 or a refusal from 1 to 17");
    Err(Refused { refusal, fault })
}

/// What a call answers in a row of `N` bytes.
fn row<const N: usize>(call: impl FnOnce(*mut u8, usize) -> u32) -> Result<[u8; N], Refused> {
    let mut answer = [0; N];
    reply(call(answer.as_mut_ptr(), N))?;
    Ok(answer)
}

fn u32_at(row: &[u8], at: usize) -> u32 {
    u32::from_le_bytes([row[at], row[at + 1], row[at + 2], row[at + 3]])
}

fn option_at(row: &[u8; 5]) -> Option<u32> {
    (row[0] != 0).then(|| u32_at(row, 1))
}
