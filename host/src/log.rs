//! The log of a dump, page by page, as the proved calls answer.

use std::ops::Range;

use stipeflute::{
    FLASH_PAGE_LEN, Flash, LedgerHeader, PageMetadata, Reason, Refusal, Refused, Scan, StorageLayout, StoredFlight, decode_page, explain,
    find_flight, is_synced, page_flight_id, read_header, scan_log,
};

use crate::dump::Dump;
use crate::stop::Stop;

/// What the bytes of a log page are.
#[derive(Clone, Copy, Debug, Eq, PartialEq)]
pub enum Page {
    /// It decodes.
    Whole(PageMetadata),
    /// All 256 bytes are 0xff; it does not decode, with the refusal.
    Blank(Refusal),
    /// Neither: it does not decode, with the refusal.
    Torn(Refusal),
}

const PAST_THE_LOG: Refused = Refused { refusal: Refusal::Corrupt, fault: 0 };

pub struct Log<'a> {
    pub layout: StorageLayout,
    pub scan: Scan,
    /// Why the scan answers so.
    pub reason: Reason,
    pub ledger: LedgerHeader,
    /// Every log page.
    pub pages: Vec<Page>,
    flash: Flash<'a>,
}

impl<'a> Log<'a> {
    pub fn of(dump: &'a Dump) -> Result<Log<'a>, Stop> {
        let flash = dump.flash();
        let (scan, reason) = (scan_log(flash)?, explain(flash)?);
        let mut log = Log { layout: dump.layout, scan, reason, ledger: read_header(flash)?, pages: Vec::new(), flash };
        let mut probe = Probe::new();
        for index in 0..log.layout.log_page_count {
            log.pages.push(page(log.bytes(index)?.1, &mut probe)?);
        }
        Ok(log)
    }

    /// Whether the scan found a foreign log: it does for these two reasons.
    pub fn foreign(&self) -> bool {
        matches!(self.reason, Reason::FirstTorn(_) | Reason::LastTorn { .. })
    }

    /// Whether a page lies below the scan's page, and so counts as used.
    pub fn used(&self, index: u32) -> bool {
        index < self.scan.next_page
    }

    /// Where a page begins, and its bytes; one past the log is refused 7, as the search does.
    pub fn bytes(&self, index: u32) -> Result<(u32, &'a [u8]), Refused> {
        let address = self.layout.log_page_address(index)?.ok_or(PAST_THE_LOG)?;
        let bytes = self.flash.image.get(address as usize..).and_then(|rest| rest.get(..FLASH_PAGE_LEN)).ok_or(PAST_THE_LOG)?;
        Ok((address, bytes))
    }

    /// A page; one past the log is refused 7.
    pub fn page(&self, index: u32) -> Result<Page, Refused> {
        self.pages.get(index as usize).copied().ok_or(PAST_THE_LOG)
    }

    /// The pages of a range, with their indices.
    pub fn range(&self, range: Range<u32>) -> impl Iterator<Item = (u32, Page)> {
        let first = range.start.min(range.end);
        let pages = self.pages.get(first as usize..).unwrap_or(&[]);
        (first..range.end).zip(pages.iter().copied())
    }

    /// The used pages of a range that don't decode: torn ones, and blank ones below the scan's page.
    pub fn torn(&self, range: Range<u32>) -> Vec<u32> {
        let torn = |&(index, page): &(u32, Page)| self.used(index) && !matches!(page, Page::Whole(_));
        self.range(range).filter(torn).map(|(index, _)| index).collect()
    }

    /// The flight that a page counts with in the search, if any.
    pub fn page_flight(&self, index: u32) -> Result<Option<u32>, Refused> {
        page_flight_id(self.flash, index)
    }

    /// Where a flight lies among the used pages, if anywhere.
    pub fn find(&self, flight: u32) -> Result<Option<StoredFlight>, Refused> {
        find_flight(self.flash, self.scan.next_page, flight)
    }

    /// Whether a host has acknowledged a flight; none where the ledger has no bit for it (refusal 8).
    pub fn acknowledged(&self, flight: u32) -> Result<Option<bool>, Refused> {
        match is_synced(self.flash, flight) {
            Ok(synced) => Ok(Some(synced)),
            Err(refused) if refused.refusal == Refusal::OutOfRange => Ok(None),
            Err(refused) => Err(refused),
        }
    }
}

fn page(bytes: &[u8], probe: &mut Probe) -> Result<Page, Refused> {
    match decode_page(bytes) {
        Ok(metadata) => Ok(Page::Whole(metadata)),
        Err(refused) if probe.blank(bytes)? => Ok(Page::Blank(refused.refusal)),
        Err(refused) => Ok(Page::Torn(refused.refusal)),
    }
}

/// Whether a page is blank. No call answers this of a single page, so a scan is asked, of the smallest flash with that page in every place
/// of its log: nothing is used there exactly if the page is blank, and the log may be written exactly if something is not used.
struct Probe {
    image: Vec<u8>,
    answer: Option<bool>,
}

const PROBE: u32 = 20_480;
const PROBE_LOG: Range<usize> = 12_288..16_384;

impl Probe {
    fn new() -> Probe {
        Probe { image: vec![0xff; PROBE as usize], answer: None }
    }

    fn blank(&mut self, page: &[u8]) -> Result<bool, Refused> {
        let log = &mut self.image[PROBE_LOG];
        if let Some(answer) = self.answer
            && log[..page.len()] == *page
        {
            return Ok(answer);
        }
        for place in log.chunks_exact_mut(page.len()) {
            place.copy_from_slice(page);
        }
        let answer = scan_log(Flash { capacity_bytes: PROBE, image: &self.image, faults: &[0; 80] })?.writable;
        self.answer = Some(answer);
        Ok(answer)
    }
}

#[cfg(test)]
mod tests {
    use super::*;
    use stipeflute::{FlightRecord, encode_page};

    #[test]
    fn a_page_is_blank_exactly_if_all_its_bytes_are_0xff() {
        let mut probe = Probe::new();
        let blank = [0xff; 256];
        let whole = encode_page(1, 0, &[FlightRecord::default()]).unwrap();
        for page in [blank, [0; 256], whole, blank, whole] {
            assert_eq!(probe.blank(&page), Ok(page == blank));
        }
        for at in 0..256 {
            for bit in 0..8 {
                let mut page = blank;
                page[at] ^= 1 << bit;
                assert_eq!(probe.blank(&page), Ok(false), "bit {bit} of byte {at}");
            }
        }
    }
}
