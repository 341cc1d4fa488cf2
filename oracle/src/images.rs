//! Images: sound logs, logs that a power cut left, and images that no writer makes.

use crate::blackbox::{FLASH_PAGE_LEN, FlightRecord, RECORD_LEN, RECORDS_PER_PAGE, encode_page};
use crate::layout::{LOG_START_ADDRESS, StorageLayout};
use crate::seeded::Seeded;
use crate::sync_ledger::{SYNC_LEDGER_BITMAP_OFFSET, SYNC_LEDGER_CAPACITY, SYNC_LEDGER_MAGIC};
use std::string::String;
use std::vec::Vec;

/// A lent image and its fault bytes.
#[derive(Clone)]
pub struct Image {
    pub capacity: u32,
    pub bytes: Vec<u8>,
    pub faults: Vec<u8>,
    /// How it was made, for a recipe.
    pub shape: String,
    /// Pages that were laid, from page 0 on; what a search is asked about.
    pub used: u32,
    /// Flights that were laid.
    pub flights: Vec<u32>,
}

impl Image {
    pub fn erased(capacity: u32) -> Self {
        Self {
            capacity,
            bytes: vec![0xff; capacity as usize],
            faults: vec![0; capacity as usize / FLASH_PAGE_LEN],
            shape: String::new(),
            used: 0,
            flights: Vec::new(),
        }
    }

    pub fn pages(&self) -> u32 {
        StorageLayout::new(self.capacity).unwrap().log_page_count
    }

    pub fn page_mut(&mut self, index: u32) -> &mut [u8] {
        let at = LOG_START_ADDRESS as usize + index as usize * FLASH_PAGE_LEN;
        &mut self.bytes[at..at + FLASH_PAGE_LEN]
    }

    pub fn page(&self, index: u32) -> &[u8] {
        let at = LOG_START_ADDRESS as usize + index as usize * FLASH_PAGE_LEN;
        &self.bytes[at..at + FLASH_PAGE_LEN]
    }

    pub fn ledger_mut(&mut self) -> &mut [u8] {
        let at = self.bytes.len() - 4096;
        &mut self.bytes[at..]
    }
}

/// A capacity that StorageLayout::new takes: mostly small, now and then any, rarely the largest.
pub fn capacity(random: &mut Seeded) -> u32 {
    match random.below(64) {
        0 => 4096 * random.from_to(5, 64) as u32,
        1 => 4096 * random.from_to(5, 30) as u32,
        2..=9 => 4096 * random.from_to(6, 15) as u32,
        10..=19 => 24_576,
        _ => 20_480,
    }
}

pub fn large_capacity(random: &mut Seeded) -> u32 {
    match random.below(3) {
        0 => 16_777_216,
        1 => 4096 * random.from_to(1024, 4096) as u32,
        _ => 4096 * random.from_to(64, 1024) as u32,
    }
}

pub fn record(random: &mut Seeded) -> FlightRecord {
    let mut bytes = [0u8; RECORD_LEN];
    match random.below(8) {
        0 => {}
        1 => bytes = [0xff; RECORD_LEN],
        2 => {
            for pair in bytes.chunks_mut(2) {
                pair.copy_from_slice(&random.pick(&[0u16, 1, 0x7fff, 0x8000, 0x8001, 0xffff]).to_le_bytes());
            }
        }
        _ => random.fill(&mut bytes),
    }
    FlightRecord::decode(&bytes)
}

pub fn records(random: &mut Seeded, count: usize) -> Vec<FlightRecord> {
    (0..count).map(|_| record(random)).collect()
}

/// A page that decodes.
pub fn whole_page(random: &mut Seeded, flight: u32, sequence: u32) -> [u8; FLASH_PAGE_LEN] {
    let count = if random.one_in(8) { random.below(6) as usize } else { RECORDS_PER_PAGE };
    let mut page = encode_page(flight, sequence, &records(random, count)).unwrap();
    if random.one_in(32) {
        // Any bytes in unused slots decode if the checksum fits.
        random.fill(&mut page[count * RECORD_LEN..240]);
        seal(&mut page);
    }
    page
}

/// The checksum put right.
pub fn seal(page: &mut [u8]) {
    let crc = crate::page::crc32(&page[..252]);
    page[252..].copy_from_slice(&crc.to_le_bytes());
}

/// Programmed over what stood there, with bits left unprogrammed: what a cut leaves.
pub fn tear(random: &mut Seeded, page: &mut [u8]) {
    match random.below(6) {
        0 => page.fill(0),
        1 => {
            // One bit that was not programmed, or one that was programmed too much.
            let bit = random.below(8 * page.len() as u64) as usize;
            page[bit / 8] ^= 1 << (bit % 8);
        }
        2 => {
            let from = random.below(page.len() as u64) as usize;
            page[from..].fill(0xff);
        }
        3 => {
            let to = random.below(page.len() as u64) as usize;
            page[..to].fill(0xff);
        }
        4 => random.fill(page),
        _ => {
            let mut mask = [0u8; FLASH_PAGE_LEN];
            random.fill(&mut mask);
            for (byte, keep) in page.iter_mut().zip(mask) {
                *byte |= keep;
            }
        }
    }
}

/// A trailer that the decoder refuses for one reason, or for several: magic, version, count, checksum.
pub fn spoil(random: &mut Seeded, page: &mut [u8]) {
    let reasons = random.from_to(1, 15);
    if reasons & 1 != 0 {
        page[240 + random.below(2) as usize] ^= random.from_to(1, 255) as u8;
    }
    if reasons & 2 != 0 {
        page[242] = random.pick(&[0, 2, 3, 255]);
    }
    if reasons & 4 != 0 {
        page[243] = random.pick(&[6, 7, 128, 255]);
    }
    seal(page);
    if reasons & 8 != 0 {
        page[252 + random.below(4) as usize] ^= random.from_to(1, 255) as u8;
    }
}

/// The flight that a log begins with, often so that the last lies at a limit.
fn first_flight(random: &mut Seeded) -> u32 {
    match random.below(10) {
        0 => 32_704 - random.below(20) as u32,
        1 => u32::MAX - random.below(20) as u32,
        2 => random.next() as u32,
        3 => 0,
        4 => random.from_to(1, 40_000) as u32,
        _ => random.from_to(1, 40) as u32,
    }
}

/// Runs of pages of one flight after another, rising, up to `used` pages.
fn lay_flights(random: &mut Seeded, image: &mut Image, used: u32) {
    let longest = random.pick(&[1, 2, 3, 5, 12, 400]);
    let (mut flight, mut sequence) = (first_flight(random), 0);
    let mut left = random.from_to(1, longest);
    image.flights.push(flight);
    for index in 0..used {
        if left == 0 {
            let step = if random.one_in(6) { random.from_to(1, 5) as u32 } else { 1 };
            flight = flight.wrapping_add(step);
            sequence = 0;
            left = random.from_to(1, longest);
            image.flights.push(flight);
        }
        let page = whole_page(random, flight, sequence);
        image.page_mut(index).copy_from_slice(&page);
        sequence += 1;
        left -= 1;
    }
    image.used = used;
}

/// Every page on its own: blank, whole, torn, spoilt, of any flight.
fn lay_any(random: &mut Seeded, image: &mut Image, used: u32) {
    let few = random.pick(&[2u64, 4, 40]);
    let base = first_flight(random);
    let blanks = random.flag();
    for index in 0..used {
        let flight = base.wrapping_add(random.below(few) as u32);
        image.flights.push(flight);
        let mut page = whole_page(random, flight, index);
        match random.below(10) {
            0 if blanks => page.fill(0xff),
            1 => tear(random, &mut page),
            2 => spoil(random, &mut page),
            3 if blanks => page.fill(0),
            _ => {}
        }
        image.page_mut(index).copy_from_slice(&page);
    }
    image.used = used;
}

fn damage(random: &mut Seeded, image: &mut Image) {
    let used = image.used;
    if used == 0 {
        return;
    }
    let last = used - 1;
    match random.below(16) {
        0 => tear_at(random, image, 0, "page 0 torn"),
        1 | 2 => tear_at(random, image, last, "last torn"),
        3 => {
            tear_at(random, image, last, "last torn");
            tear_at(random, image, last.saturating_sub(1), "and the one before");
        }
        4 => {
            for back in 0..random.from_to(1, 4) as u32 {
                tear_at(random, image, last.saturating_sub(back), "torn");
            }
        }
        5..=8 => {
            for _ in 0..random.from_to(1, 4) {
                let index = random.below(u64::from(used)) as u32;
                tear_at(random, image, index, "torn");
            }
        }
        9 => {
            let index = random.below(u64::from(used)) as u32;
            image.page_mut(index).fill(0xff);
            image.shape += &format!(", hole at {index}");
        }
        10 => {
            let from = random.below(u64::from(used)) as u32;
            for index in from..used.min(from + random.from_to(1, 6) as u32) {
                image.page_mut(index).fill(0xff);
            }
            image.shape += &format!(", holes from {from}");
        }
        11 => {
            let index = random.below(u64::from(used)) as u32;
            let mut page: [u8; FLASH_PAGE_LEN] = image.page(index).try_into().unwrap();
            spoil(random, &mut page);
            image.page_mut(index).copy_from_slice(&page);
            image.shape += &format!(", spoilt at {index}");
        }
        12 => {
            // A page of another flight among them, so that flights fall.
            let index = random.below(u64::from(used)) as u32;
            let flight = random.number();
            image.flights.push(flight);
            let page = whole_page(random, flight, 0);
            image.page_mut(index).copy_from_slice(&page);
            image.shape += &format!(", flight {flight} at {index}");
        }
        _ => {}
    }
}

fn tear_at(random: &mut Seeded, image: &mut Image, index: u32, what: &str) {
    let mut page: [u8; FLASH_PAGE_LEN] = image.page(index).try_into().unwrap();
    tear(random, &mut page);
    image.page_mut(index).copy_from_slice(&page);
    image.shape += &format!(", {what} at {index}");
}

fn lay_ledger(random: &mut Seeded, image: &mut Image) {
    let flights = image.flights.clone();
    let ledger = image.ledger_mut();
    let header = random.below(8);
    match header {
        0 => {}
        1 => {
            // One bit off, or a header cut short.
            ledger[..8].copy_from_slice(&SYNC_LEDGER_MAGIC);
            let bit = random.below(64) as usize;
            ledger[bit / 8] ^= 1 << (bit % 8);
        }
        2 => random.fill(ledger),
        _ => ledger[..8].copy_from_slice(&SYNC_LEDGER_MAGIC),
    }
    image.shape += ["", ", header off", ", ledger of any bytes"].get(header as usize).copied().unwrap_or(", ledger");
    match random.below(6) {
        0 => {}
        1 => image.ledger_mut()[8..].fill(0),
        2 => random.fill(&mut image.ledger_mut()[8..]),
        3 => flights.iter().for_each(|flight| acknowledge(image, *flight)),
        _ => {
            let of = random.from_to(2, 5);
            for flight in flights {
                if !random.one_in(of) {
                    acknowledge(image, flight);
                }
            }
        }
    }
}

fn acknowledge(image: &mut Image, flight: u32) {
    if flight != 0 && flight <= SYNC_LEDGER_CAPACITY {
        let bit = flight - 1;
        image.ledger_mut()[(SYNC_LEDGER_BITMAP_OFFSET + bit / 8) as usize] &= !(1u8 << (bit % 8));
    }
}

fn lay_faults(random: &mut Seeded, image: &mut Image) {
    let count = image.faults.len() as u64;
    let fault = random.from_to(1, 255) as u8;
    let at = match random.below(12) {
        0 => random.below(count),
        1 => 48,
        2 => 48 + u64::from(image.used.saturating_sub(1)),
        3 => 48 + u64::from(image.used),
        4 => count - 16,
        5 => count - random.from_to(1, 16),
        6 => {
            for _ in 0..random.from_to(1, 6) {
                let at = random.below(count) as usize;
                image.faults[at] = random.byte();
            }
            image.shape += ", some faults";
            return;
        }
        _ => return,
    };
    let at = at.min(count - 1);
    image.faults[at as usize] = fault;
    image.shape += &format!(", fault {fault} at {at}");
}

/// An image of a capacity, with a log, a ledger and fault bytes of some kind.
pub fn image(random: &mut Seeded, capacity: u32) -> Image {
    let mut image = Image::erased(capacity);
    let pages = image.pages();
    let used = match random.below(8) {
        0 => pages,
        1 => pages - 1,
        2 => random.below(4).min(u64::from(pages)) as u32,
        _ => random.from_to(0, u64::from(pages)) as u32,
    };
    if random.one_in(4) {
        let outside = random.byte();
        image.bytes[..LOG_START_ADDRESS as usize].fill(outside);
    }
    if random.one_in(3) {
        image.shape = format!("capacity {capacity}, {used} pages of any kind");
        lay_any(random, &mut image, used);
    } else {
        image.shape = format!("capacity {capacity}, {used} pages of rising flights");
        lay_flights(random, &mut image, used);
    }
    damage(random, &mut image);
    if random.one_in(40) && used > 1 {
        tear_at(random, &mut image, 0, "page 0 torn");
    }
    lay_ledger(random, &mut image);
    lay_faults(random, &mut image);
    image
}
