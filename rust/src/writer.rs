//! The log writer, by a script of its calls that the rig plays.

use crate::{ffi, reply, u32_at, FlightRecord, Refused, FLASH_PAGE_LEN};

/// What the program after those that succeed does; a fault and a cut leave the bits that their mask keeps.
#[derive(Clone, Copy, Debug, Eq, PartialEq)]
pub enum NextProgram {
    Busy,
    Fault([u8; FLASH_PAGE_LEN]),
    Cut([u8; FLASH_PAGE_LEN]),
}

impl NextProgram {
    fn put(self, row: &mut [u8; ROW_LEN]) {
        let (code, keep) = match self {
            Self::Busy => (0, [0; FLASH_PAGE_LEN]),
            Self::Fault(keep) => (1, keep),
            Self::Cut(keep) => (2, keep),
        };
        row[3] = code;
        row[32..].copy_from_slice(&keep);
    }
}

/// One operation of a script.
#[derive(Clone, Copy, Debug, Eq, PartialEq)]
pub enum Operation {
    Offer(FlightRecord),
    Drain { limit: u32, record_while_disarmed: bool, armed: bool, succeed: u32, next: NextProgram },
    WritePending { succeed: u32, next: NextProgram },
    PowerOn,
    Recover { next_page: u32, next_flight: u32, writable: bool },
    ResetAfterErase,
    FlushWriteBack { write_back_pending: bool, now_ms: u64 },
}

/// The bytes of a row, and of what is told after its call.
pub const ROW_LEN: usize = 288;
pub const TELL_LEN: usize = 40;

impl Operation {
    /// The row that says the operation.
    pub fn row(self) -> [u8; ROW_LEN] {
        let mut row = [0; ROW_LEN];
        row[..2].copy_from_slice(&(ROW_LEN as u16).to_le_bytes());
        let numbers = |row: &mut [u8; ROW_LEN], first: u32, second: u32| {
            row[8..12].copy_from_slice(&first.to_le_bytes());
            row[12..16].copy_from_slice(&second.to_le_bytes());
        };
        match self {
            Self::Offer(record) => row[32..80].copy_from_slice(&record.encode()),
            Self::Drain { limit, record_while_disarmed, armed, succeed, next } => {
                row[2] = 1;
                row[4] = armed.into();
                row[5] = record_while_disarmed.into();
                numbers(&mut row, limit, succeed);
                next.put(&mut row);
            }
            Self::WritePending { succeed, next } => {
                row[2] = 2;
                numbers(&mut row, 0, succeed);
                next.put(&mut row);
            }
            Self::PowerOn => row[2] = 3,
            Self::Recover { next_page, next_flight, writable } => {
                row[2] = 4;
                row[6] = writable.into();
                numbers(&mut row, next_page, next_flight);
            }
            Self::ResetAfterErase => row[2] = 5,
            Self::FlushWriteBack { write_back_pending, now_ms } => {
                row[2] = 6;
                row[6] = write_back_pending.into();
                row[8..16].copy_from_slice(&now_ms.to_le_bytes());
            }
        }
        row
    }
}

/// What is told after a call: its outcome, its report and the writer's visible state.
#[derive(Clone, Copy, Debug, Eq, PartialEq)]
pub struct Told {
    /// Of an offer its refusal (0 or 16); of a drain 1 if the power was cut; of write_pending 0 Nothing, 1 Written, 2 RegionFull,
    /// 3 ProgramFailed, 4 power cut; of a flush 1 if it flushes; else 0.
    pub outcome: u8,
    pub pages_written: u32,
    pub records_dropped: u32,
    pub write_faults: u32,
    pub next_page: u32,
    pub next_flight: u32,
    pub writable: bool,
    pub recording: bool,
    pub unfinished_flight: Option<u32>,
    pub write_back_since_ms: Option<u64>,
    pub queue_len: u8,
}

impl Told {
    fn read(row: &[u8]) -> Self {
        let since = u64::from(u32_at(row, 32)) | u64::from(u32_at(row, 36)) << 32;
        Self {
            outcome: row[0],
            pages_written: u32_at(row, 8),
            records_dropped: u32_at(row, 12),
            write_faults: u32_at(row, 16),
            next_page: u32_at(row, 20),
            next_flight: u32_at(row, 24),
            writable: row[1] != 0,
            recording: row[2] != 0,
            unfinished_flight: (row[3] != 0).then(|| u32_at(row, 28)),
            write_back_since_ms: (row[4] != 0).then_some(since),
            queue_len: row[5],
        }
    }
}

/// Plays operations on an image, from before the first power-on, with a fresh writer and an empty queue.
pub fn play(capacity_bytes: u32, image: &mut [u8], script: &[Operation]) -> Result<Vec<Told>, Refused> {
    let rows: Vec<u8> = script.iter().flat_map(|operation| operation.row()).collect();
    let mut output = vec![0; script.len() * TELL_LEN];
    reply(unsafe {
        ffi::stipeflute_rig(
            capacity_bytes,
            image.as_mut_ptr(),
            image.len(),
            rows.as_ptr(),
            rows.len(),
            output.as_mut_ptr(),
            output.len(),
        )
    })?;
    Ok(output.chunks_exact(TELL_LEN).map(Told::read).collect())
}
