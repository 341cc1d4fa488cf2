//! The ledger, log sync and its lines.

use crate::log::stored_at;
use crate::{ffi, reply, row, u32_at, Flash, Refusal, Refused, StoredFlight};

/// Flights that one answer lists.
pub const MAX_LISTED_FLIGHTS: usize = 8;

#[derive(Clone, Copy, Debug, Eq, PartialEq)]
pub enum LedgerHeader {
    /// Erased and never used.
    Blank,
    Valid,
    /// Something else, such as log pages written before the ledger existed.
    Foreign,
}

/// The next flash operation toward an acknowledgement.
#[derive(Clone, Copy, Debug, Eq, PartialEq)]
pub enum MarkStep {
    /// The sector holds foreign bytes and must be erased first.
    EraseLedger { address: u32 },
    ProgramHeader { address: u32 },
    /// This one byte, which clears the flight's bit.
    ProgramBit { address: u32, value: u8 },
    /// The flight is acknowledged already.
    Done,
}

/// Complete flights that no host has acknowledged, newest first, and whether a ninth exists.
#[derive(Clone, Copy, Debug, Eq, PartialEq)]
pub struct Unsynced {
    count: usize,
    flights: [StoredFlight; MAX_LISTED_FLIGHTS],
    pub more: bool,
}

impl Unsynced {
    /// The flights that are listed.
    pub fn flights(&self) -> &[StoredFlight] {
        &self.flights[..self.count]
    }
}

/// A text in an array of `N` bytes.
#[derive(Clone, Copy, Debug, Eq, PartialEq)]
pub struct Text<const N: usize> {
    len: usize,
    bytes: [u8; N],
}

impl<const N: usize> Text<N> {
    /// The text of a row: its length in four bytes, then the array.
    fn of(row: &[u8]) -> Self {
        let mut bytes = [0; N];
        bytes.copy_from_slice(&row[4..]);
        Self { len: u32_at(row, 0) as usize, bytes }
    }

    pub fn as_bytes(&self) -> &[u8] {
        &self.bytes[..self.len]
    }
}

/// The ledger's header.
pub fn read_header(flash: Flash) -> Result<LedgerHeader, Refused> {
    let (image, faults) = (flash.image, flash.faults);
    let answer: [u8; 1] = row(|answer, len| unsafe {
        ffi::stipeflute_read_header(flash.capacity_bytes, image.as_ptr(), image.len(), faults.as_ptr(), faults.len(), answer, len)
    })?;
    Ok(match answer[0] {
        0 => LedgerHeader::Blank,
        1 => LedgerHeader::Valid,
        _ => LedgerHeader::Foreign,
    })
}

/// The ledger byte that holds a flight's bit, and that bit's mask; flight 0 and flights above 32,704 are refused 8.
pub fn bit_location(capacity_bytes: u32, flight_id: u32) -> Result<(u32, u8), Refused> {
    let answer: [u8; 5] = row(|answer, len| unsafe { ffi::stipeflute_bit_location(capacity_bytes, flight_id, answer, len) })?;
    Ok((u32_at(&answer, 0), answer[4]))
}

/// Whether a host has acknowledged a flight.
pub fn is_synced(flash: Flash, flight_id: u32) -> Result<bool, Refused> {
    let (image, faults) = (flash.image, flash.faults);
    let answer: [u8; 1] = row(|answer, len| unsafe {
        ffi::stipeflute_is_synced(
            flash.capacity_bytes,
            image.as_ptr(),
            image.len(),
            faults.as_ptr(),
            faults.len(),
            flight_id,
            answer,
            len,
        )
    })?;
    Ok(answer[0] != 0)
}

/// The next operation toward acknowledging a flight. Asked again after each until it says Done.
pub fn next_mark_step(flash: Flash, flight_id: u32) -> Result<MarkStep, Refused> {
    let (image, faults) = (flash.image, flash.faults);
    let answer: [u8; 6] = row(|answer, len| unsafe {
        ffi::stipeflute_next_mark_step(
            flash.capacity_bytes,
            image.as_ptr(),
            image.len(),
            faults.as_ptr(),
            faults.len(),
            flight_id,
            answer,
            len,
        )
    })?;
    let address = u32_at(&answer, 1);
    Ok(match answer[0] {
        0 => MarkStep::EraseLedger { address },
        1 => MarkStep::ProgramHeader { address },
        2 => MarkStep::ProgramBit { address, value: answer[5] },
        _ => MarkStep::Done,
    })
}

/// One ledger operation on the image. A `device` reply of 0 succeeds; another is its fault, refused 6 after what the 256-byte mask `keep` keeps
/// of a program was stored.
pub fn start_mark_step(
    capacity_bytes: u32,
    image: &mut [u8],
    step: MarkStep,
    keep: &[u8],
    device: u8,
) -> Result<(), Refused> {
    let (kind, address, value) = match step {
        MarkStep::EraseLedger { address } => (0, address, 0),
        MarkStep::ProgramHeader { address } => (1, address, 0),
        MarkStep::ProgramBit { address, value } => (2, address, value),
        MarkStep::Done => (3, 0, 0),
    };
    reply(unsafe {
        ffi::stipeflute_start_mark_step(
            capacity_bytes,
            image.as_mut_ptr(),
            image.len(),
            kind,
            address,
            value,
            keep.as_ptr(),
            keep.len(),
            device,
        )
    })
}

/// Up to eight complete flights that no host has acknowledged, newest first, and whether a ninth exists.
pub fn unsynced_flights(flash: Flash, used_pages: u32, recording: Option<u32>) -> Result<Unsynced, Refused> {
    let (image, faults) = (flash.image, flash.faults);
    let answer: [u8; 98] = row(|answer, len| unsafe {
        ffi::stipeflute_unsynced_flights(
            flash.capacity_bytes,
            image.as_ptr(),
            image.len(),
            faults.as_ptr(),
            faults.len(),
            used_pages,
            recording.is_some().into(),
            recording.unwrap_or(0),
            answer,
            len,
        )
    })?;
    let flights = core::array::from_fn(|i| stored_at(&answer, 2 + 12 * i));
    Ok(Unsynced { count: usize::from(answer[0]), flights, more: answer[1] != 0 })
}

/// Whether erasing the log would lose nothing that a host has not stored.
pub fn all_synced(flash: Flash, used_pages: u32, recording: Option<u32>) -> Result<bool, Refused> {
    let (image, faults) = (flash.image, flash.faults);
    let answer: [u8; 1] = row(|answer, len| unsafe {
        ffi::stipeflute_all_synced(
            flash.capacity_bytes,
            image.as_ptr(),
            image.len(),
            faults.as_ptr(),
            faults.len(),
            used_pages,
            recording.is_some().into(),
            recording.unwrap_or(0),
            answer,
            len,
        )
    })?;
    Ok(answer[0] != 0)
}

/// Whether a host's acknowledgement of a flight so many pages long may be recorded.
pub fn check_ack(flash: Flash, used_pages: u32, recording: Option<u32>, flight_id: u32, pages: u32) -> Result<(), Refused> {
    let (image, faults) = (flash.image, flash.faults);
    reply(unsafe {
        ffi::stipeflute_check_ack(
            flash.capacity_bytes,
            image.as_ptr(),
            image.len(),
            faults.as_ptr(),
            faults.len(),
            used_pages,
            recording.is_some().into(),
            recording.unwrap_or(0),
            flight_id,
            pages,
        )
    })
}

/// The whole answer to `logs unsynced`; more than eight flights are refused 17.
pub fn unsynced_lines(flights: &[StoredFlight], more: bool) -> Result<Text<472>, Refused> {
    let mut rows = [0; 12 * MAX_LISTED_FLIGHTS];
    for (slot, flight) in rows.chunks_exact_mut(12).zip(flights) {
        slot[0..4].copy_from_slice(&flight.flight_id.to_le_bytes());
        slot[4..8].copy_from_slice(&flight.start_page.to_le_bytes());
        slot[8..12].copy_from_slice(&flight.pages.to_le_bytes());
    }
    let count = u32::try_from(flights.len()).unwrap_or(u32::MAX);
    let answer: [u8; 476] = row(|answer, len| unsafe {
        ffi::stipeflute_unsynced_lines(rows.as_ptr(), rows.len(), count, more.into(), answer, len)
    })?;
    Ok(Text::of(&answer))
}

/// The text that answers a refused acknowledgement; none but for 12 to 15.
pub fn ack_response(refusal: Refusal) -> Text<56> {
    let answer: [u8; 60] = row(|answer, len| unsafe { ffi::stipeflute_ack_response(refusal.number(), answer, len) })
        .expect("a text is never refused");
    Text::of(&answer)
}
