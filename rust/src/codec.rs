//! Checksum, records, pages and the assembler.

use crate::{ffi, reply, row, u32_at, Refused};

pub const FLASH_PAGE_LEN: usize = 256;
pub const RECORD_LEN: usize = 48;
pub const RECORDS_PER_PAGE: usize = 5;

/// One control record of the flight blackbox.
#[derive(Clone, Copy, Debug, Default, Eq, PartialEq)]
pub struct FlightRecord {
    pub timestamp_us: u32,
    pub control_sequence: u32,
    pub imu_sequence: u32,
    pub flags: u16,
    pub raw_gyro_dps10: [i16; 3],
    pub filtered_gyro_dps10: [i16; 3],
    pub command_dps10: [i16; 3],
    pub pid: [i16; 3],
    pub throttle: u16,
    pub motors: [u16; 4],
}

/// What a page's trailer says.
#[derive(Clone, Copy, Debug, Eq, PartialEq)]
pub struct PageMetadata {
    pub flight_id: u32,
    pub page_sequence: u32,
    pub record_count: u8,
}

/// CRC-32 of IEEE 802.3.
pub fn crc32(bytes: &[u8]) -> u32 {
    let answer: [u8; 4] = row(|answer, len| unsafe { ffi::stipeflute_crc32(bytes.as_ptr(), bytes.len(), answer, len) })
        .expect("a checksum is never refused");
    u32::from_le_bytes(answer)
}

fn u16_at(row: &[u8], at: usize) -> u16 {
    u16::from_le_bytes([row[at], row[at + 1]])
}

fn i16x3_at(row: &[u8], at: usize) -> [i16; 3] {
    [u16_at(row, at) as i16, u16_at(row, at + 2) as i16, u16_at(row, at + 4) as i16]
}

/// The fields of an answer row of 48 bytes.
fn fields(row: &[u8; RECORD_LEN]) -> FlightRecord {
    FlightRecord {
        timestamp_us: u32_at(row, 0),
        control_sequence: u32_at(row, 4),
        imu_sequence: u32_at(row, 8),
        flags: u16_at(row, 12),
        raw_gyro_dps10: i16x3_at(row, 14),
        filtered_gyro_dps10: i16x3_at(row, 20),
        command_dps10: i16x3_at(row, 26),
        pid: i16x3_at(row, 32),
        throttle: u16_at(row, 38),
        motors: [u16_at(row, 40), u16_at(row, 42), u16_at(row, 44), u16_at(row, 46)],
    }
}

impl FlightRecord {
    /// A record's 48 bytes.
    pub fn encode(self) -> [u8; RECORD_LEN] {
        let (raw, filtered, command, pid, motors) =
            (self.raw_gyro_dps10, self.filtered_gyro_dps10, self.command_dps10, self.pid, self.motors);
        row(|answer, len| unsafe {
            ffi::stipeflute_record_encode(
                self.timestamp_us,
                self.control_sequence,
                self.imu_sequence,
                self.flags,
                raw[0],
                raw[1],
                raw[2],
                filtered[0],
                filtered[1],
                filtered[2],
                command[0],
                command[1],
                command[2],
                pid[0],
                pid[1],
                pid[2],
                self.throttle,
                motors[0],
                motors[1],
                motors[2],
                motors[3],
                answer,
                len,
            )
        })
        .expect("a record's encoding is never refused")
    }

    /// A record from its 48 bytes; another length is refused 17.
    pub fn decode(input: &[u8]) -> Result<Self, Refused> {
        let answer = row(|answer, len| unsafe { ffi::stipeflute_record_decode(input.as_ptr(), input.len(), answer, len) })?;
        Ok(fields(&answer))
    }
}

/// A page of at most five records; more are refused 1.
pub fn encode_page(flight_id: u32, page_sequence: u32, records: &[FlightRecord]) -> Result<[u8; FLASH_PAGE_LEN], Refused> {
    let mut rows = [0; RECORD_LEN * RECORDS_PER_PAGE];
    for (slot, record) in rows.chunks_exact_mut(RECORD_LEN).zip(records) {
        slot.copy_from_slice(&record.encode());
    }
    let count = u32::try_from(records.len()).unwrap_or(u32::MAX);
    row(|answer, len| unsafe {
        ffi::stipeflute_encode_page(flight_id, page_sequence, rows.as_ptr(), rows.len(), count, answer, len)
    })
}

/// What a page's trailer says, refused in the order 17, 2, 3, 1, 4.
pub fn decode_page(page: &[u8]) -> Result<PageMetadata, Refused> {
    let answer: [u8; 9] = row(|answer, len| unsafe { ffi::stipeflute_decode_page(page.as_ptr(), page.len(), answer, len) })?;
    Ok(PageMetadata { flight_id: u32_at(&answer, 0), page_sequence: u32_at(&answer, 4), record_count: answer[8] })
}

/// The record at an index of a page that decodes; an index not below the count is refused 1.
pub fn record_from_page(page: &[u8], index: u32) -> Result<FlightRecord, Refused> {
    let answer =
        row(|answer, len| unsafe { ffi::stipeflute_record_from_page(page.as_ptr(), page.len(), index, answer, len) })?;
    Ok(fields(&answer))
}

/// The deterministic pattern of the destructive scratch-sector tests.
pub fn scratch_test_page() -> [u8; FLASH_PAGE_LEN] {
    row(|answer, len| unsafe { ffi::stipeflute_scratch_test_page(answer, len) }).expect("the scratch page is never refused")
}

/// One call of the page assembler.
#[derive(Clone, Copy, Debug, Eq, PartialEq)]
pub enum AssemblerCall {
    Recording,
    Start { flight_id: u32, boot_session_start: bool },
    Push(FlightRecord),
    Stop,
    TakeReadyPage,
    UnfinishedFlight { page_pending: bool },
}

impl AssemblerCall {
    /// The row of 54 bytes that stands for the call.
    fn row(self) -> [u8; 54] {
        let mut row = [0; 54];
        match self {
            Self::Recording => {}
            Self::Start { flight_id, boot_session_start } => {
                row[0] = 1;
                row[1] = boot_session_start.into();
                row[2..6].copy_from_slice(&flight_id.to_le_bytes());
            }
            Self::Push(record) => {
                row[0] = 2;
                row[6..].copy_from_slice(&record.encode());
            }
            Self::Stop => row[0] = 3,
            Self::TakeReadyPage => row[0] = 4,
            Self::UnfinishedFlight { page_pending } => {
                row[0] = 5;
                row[1] = page_pending.into();
            }
        }
        row
    }
}

/// What a call of the assembler answers.
#[derive(Clone, Copy, Debug, Eq, PartialEq)]
pub struct Assembled {
    /// What push and stop say of a ready page, whether take_ready_page gives one, whether there is an unfinished flight, whether a flight is
    /// recorded.
    pub flag: bool,
    /// The unfinished flight, else 0.
    pub flight: u32,
    /// The page that was taken, else zeros.
    pub page: [u8; FLASH_PAGE_LEN],
}

/// What the last of the calls answers, played from a fresh assembler; a refused call in between leaves the assembler as the Rust does.
pub fn assemble(script: &[AssemblerCall]) -> Result<Assembled, Refused> {
    let rows: Vec<u8> = script.iter().flat_map(|call| call.row()).collect();
    let mut answer = [0; 261];
    reply(unsafe { ffi::stipeflute_assemble(rows.as_ptr(), rows.len(), answer.as_mut_ptr(), answer.len()) })?;
    let mut page = [0; FLASH_PAGE_LEN];
    page.copy_from_slice(&answer[5..]);
    Ok(Assembled { flag: answer[0] != 0, flight: u32_at(&answer, 1), page })
}
