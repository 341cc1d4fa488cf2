//! The scan and the search.

use crate::{ffi, option_at, row, u32_at, Flash, Refusal, Refused};

/// What a scan finds: the append point, the next flight, and whether the log may be written.
#[derive(Clone, Copy, Debug, Eq, PartialEq)]
pub struct Scan {
    pub next_page: u32,
    pub next_flight: u32,
    pub writable: bool,
}

/// Why a scan answers as it does: the first that holds. A page that doesn't decode has its decode refusal with it, which is
/// InvalidMagic, UnsupportedVersion, InvalidRecordCount or CrcMismatch.
#[derive(Clone, Copy, Debug, Eq, PartialEq)]
pub enum Reason {
    /// Page 0 is used and doesn't decode; the scan says foreign.
    FirstTorn(Refusal),
    /// The last two used pages, by their index, don't decode; the scan says foreign.
    LastTorn { earlier_page: u32, earlier: Refusal, later_page: u32, later: Refusal },
    /// The halving finds no blank page.
    Full,
    /// Nothing is wrong; the log may be written.
    Nothing,
}

/// One flight's run of log pages.
#[derive(Clone, Copy, Debug, Default, Eq, PartialEq)]
pub struct StoredFlight {
    pub flight_id: u32,
    pub start_page: u32,
    pub pages: u32,
}

pub(crate) fn stored_at(row: &[u8], at: usize) -> StoredFlight {
    StoredFlight { flight_id: u32_at(row, at), start_page: u32_at(row, at + 4), pages: u32_at(row, at + 8) }
}

fn found(row: [u8; 13]) -> Option<StoredFlight> {
    (row[0] != 0).then(|| stored_at(&row, 1))
}

/// The append point, the next flight and whether the log may be written.
pub fn scan_log(flash: Flash) -> Result<Scan, Refused> {
    let (image, faults) = (flash.image, flash.faults);
    let answer: [u8; 9] = row(|answer, len| unsafe {
        ffi::stipeflute_scan_log(flash.capacity_bytes, image.as_ptr(), image.len(), faults.as_ptr(), faults.len(), answer, len)
    })?;
    Ok(Scan { next_page: u32_at(&answer, 0), next_flight: u32_at(&answer, 4), writable: answer[8] != 0 })
}

/// Why the scan answers as it does.
pub fn explain(flash: Flash) -> Result<Reason, Refused> {
    let (image, faults) = (flash.image, flash.faults);
    let answer: [u8; 11] = row(|answer, len| unsafe {
        ffi::stipeflute_explain(flash.capacity_bytes, image.as_ptr(), image.len(), faults.as_ptr(), faults.len(), answer, len)
    })?;
    let refusal = |at: usize| Refusal::from_number(answer[at]).expect("a decode refusal");
    Ok(match answer[0] {
        0 => Reason::Nothing,
        1 => Reason::FirstTorn(refusal(1)),
        2 => Reason::LastTorn { earlier_page: u32_at(&answer, 3), earlier: refusal(1), later_page: u32_at(&answer, 7), later: refusal(2) },
        _ => Reason::Full,
    })
}

/// The flight that a log page counts with: its own, else that of the page before it, else none; a page past the log is refused 7.
pub fn page_flight_id(flash: Flash, index: u32) -> Result<Option<u32>, Refused> {
    let (image, faults) = (flash.image, flash.faults);
    row(|answer, len| unsafe {
        ffi::stipeflute_page_flight_id(
            flash.capacity_bytes,
            image.as_ptr(),
            image.len(),
            faults.as_ptr(),
            faults.len(),
            index,
            answer,
            len,
        )
    })
    .map(|answer| option_at(&answer))
}

/// Where a flight lies in the first `used_pages` log pages, if anywhere.
pub fn find_flight(flash: Flash, used_pages: u32, flight_id: u32) -> Result<Option<StoredFlight>, Refused> {
    let (image, faults) = (flash.image, flash.faults);
    row(|answer, len| unsafe {
        ffi::stipeflute_find_flight(
            flash.capacity_bytes,
            image.as_ptr(),
            image.len(),
            faults.as_ptr(),
            faults.len(),
            used_pages,
            flight_id,
            answer,
            len,
        )
    })
    .map(found)
}

/// The newest flight of the first `end` log pages: the step of a walk from the newest flight down. None where `end` is 0.
pub fn older_flight(flash: Flash, end: u32) -> Result<Option<StoredFlight>, Refused> {
    let (image, faults) = (flash.image, flash.faults);
    row(|answer, len| unsafe {
        ffi::stipeflute_older_flight(
            flash.capacity_bytes,
            image.as_ptr(),
            image.len(),
            faults.as_ptr(),
            faults.len(),
            end,
            answer,
            len,
        )
    })
    .map(found)
}
