//! What is compared for each kind of input.

use crate::compare::Run;
use crate::images::{self, Image};
use crate::life::{Board, Op};
use crate::scripts;
use crate::seeded::{LIMITS, Seeded};
use crate::{layout, ours, theirs};
use std::vec::Vec;

/// The row's length, now and then another one.
fn row_len(random: &mut Seeded, len: usize) -> usize {
    match random.below(40) {
        0 => random.pick(&[0, len - 1, len + 1, len + 256]),
        _ => len,
    }
}

/// Both sides of a call that has an answer row.
macro_rules! row {
    ($run:expr, $random:expr, $len:expr, $call:ident($($arg:expr),*), $($asked:tt)*) => {{
        let len = row_len($random, $len);
        $run.row(
            stringify!($call),
            len,
            || format!($($asked)*) + &if len == $len { String::new() } else { format!(", a row of {len}") },
            |answer| ours::$call($($arg,)* answer),
            |answer| theirs::$call($($arg,)* answer),
        )
    }};
}

type String = std::string::String;

// ---- codec

pub fn codec(run: &mut Run, index: u64) {
    let mut random = run.begin("codec", index);
    let random = &mut random;
    checksum(run, random);
    records(run, random);
    pages(run, random);
    if index == 0 {
        row!(run, random, 256, scratch_test_page(), "");
    }
}

fn checksum(run: &mut Run, random: &mut Seeded) {
    let len = random.pick(&[0usize, 1, 2, 3, 4, 7, 8, 9, 251, 252, 253, 255, 256, 257, 1000]);
    let mut bytes = vec![0u8; len];
    match random.below(4) {
        0 => bytes.fill(random.byte()),
        _ => random.fill(&mut bytes),
    }
    row!(run, random, 4, crc32(&bytes), "{len} bytes");
}

fn records(run: &mut Run, random: &mut Seeded) {
    let record = images::record(random);
    row!(run, random, 48, record_encode(record), "{record:?}");
    let mut bytes = [0u8; 64];
    random.fill(&mut bytes);
    let len = if random.one_in(8) { random.pick(&[0, 1, 47, 49, 64]) } else { 48 };
    row!(run, random, 48, record_decode(&bytes[..len]), "{len} bytes");
}

fn pages(run: &mut Run, random: &mut Seeded) {
    let mut rows = [0u8; 300];
    random.fill(&mut rows);
    let count = if random.one_in(4) { random.number() } else { random.below(8) as u32 };
    let (flight, sequence) = (random.number(), random.number());
    let len = if random.one_in(16) { random.pick(&[0, 48, 239, 241, 288]) } else { 240 };
    row!(
        run,
        random,
        256,
        encode_page(flight, sequence, &rows[..len], count),
        "flight {flight}, sequence {sequence}, {count} of {len} bytes"
    );
    let mut page = [0u8; 257];
    let flight = random.number();
    page[..256].copy_from_slice(&images::whole_page(random, flight, sequence));
    let what = random.below(6);
    match what {
        0 => images::tear(random, &mut page[..256]),
        1 => images::spoil(random, &mut page[..256]),
        2 => random.fill(&mut page),
        _ => {}
    }
    let len = if random.one_in(16) { random.pick(&[0, 1, 240, 255, 257]) } else { 256 };
    row!(run, random, 9, decode_page(&page[..len]), "page {}", crate::compare::hex(&page[..len]));
    for index in [0, 1, 4, 5, random.below(7) as u32, random.number()] {
        row!(run, random, 48, record_from_page(&page[..len], index), "index {index} of page {}", crate::compare::hex(&page[..len]));
    }
}

// ---- layout, lines, assembler: calls without an image

pub fn numbers(run: &mut Run, index: u64) {
    let mut random = run.begin("numbers", index);
    let random = &mut random;
    let capacity = match random.below(4) {
        0 => random.number(),
        1 => random.pick(&LIMITS).wrapping_add(random.below(3) as u32).wrapping_sub(1),
        2 => (4096 * random.below(5000)) as u32,
        _ => 4096 * random.from_to(5, 4096) as u32,
    };
    row!(run, random, 20, storage_layout(capacity), "{capacity}");
    row!(run, random, 4, log_sector_count(capacity), "{capacity}");
    row!(run, random, 4, sync_ledger_address(capacity), "{capacity}");
    let near = layout::StorageLayout::new(capacity).map_or(16, |layout| layout.log_page_count);
    for index in [0, near - 1, near, random.below(u64::from(near)) as u32, random.number()] {
        row!(run, random, 5, log_page_address(capacity, index), "{capacity}, {index}");
    }
    let sectors = capacity / 4096;
    for step in [0, sectors.saturating_sub(4), sectors.saturating_sub(3), sectors, random.number()] {
        row!(run, random, 5, log_erase_sector_address(capacity, step), "{capacity}, {step}");
    }
    for flight in [random.number(), random.from_to(1, 32_704) as u32, random.pick(&[0, 1, 8, 9, 32_704, 32_705])] {
        row!(run, random, 5, bit_location(capacity, flight), "{capacity}, {flight}");
    }
}

pub fn lines(run: &mut Run, index: u64) {
    let mut random = run.begin("lines", index);
    let random = &mut random;
    let mut flights = [0u8; 108];
    for number in flights.chunks_mut(4) {
        let any = random.number();
        let power = 10u32.pow(random.below(10) as u32);
        let near = power.wrapping_add(random.below(2) as u32).wrapping_sub(1);
        number.copy_from_slice(&random.pick(&[any, near]).to_le_bytes());
    }
    let len = if random.one_in(16) { random.pick(&[0, 12, 95, 97, 108]) } else { 96 };
    let count = if random.one_in(8) { random.number() } else { random.below(10) as u32 };
    let more = random.pick(&[0, 1, 2, 255]);
    row!(run, random, 476, unsynced_lines(&flights[..len], count, more), "{count} flights, more {more}, {len} bytes");
    let number = random.below(256) as u8;
    for number in [number, random.from_to(11, 16) as u8] {
        row!(run, random, 60, ack_response(number), "{number}");
    }
}

/// Every prefix of a script is played, so that each of its calls is the last once.
pub fn assembler(run: &mut Run, index: u64) {
    let mut random = run.begin("assembler", index);
    let random = &mut random;
    let mut script = Vec::new();
    let calls = random.from_to(0, 24);
    let pushes = random.from_to(3, 12);
    for _ in 0..calls {
        let mut row = [0u8; theirs::ASSEMBLE_ROW];
        random.fill(&mut row);
        row[0] = match random.below(pushes + 6) {
            0 => 1,
            1 => 3,
            2 | 3 => 4,
            4 => 5,
            5 => random.pick(&[0, 6, 7, 255]),
            _ => 2,
        };
        row[1] = random.pick(&[0, 1, 2]);
        row[2..6].copy_from_slice(&random.number().to_le_bytes());
        script.extend_from_slice(&row);
        row!(run, random, 261, assemble(&script), "{} rows, the last {}", script.len() / theirs::ASSEMBLE_ROW, crate::compare::hex(&row));
    }
    let odd = random.below(script.len() as u64 + 1) as usize;
    row!(run, random, 261, assemble(&script[..odd]), "{odd} bytes");
}

// ---- store

pub fn store(run: &mut Run, index: u64) {
    let mut random = run.begin("store", index);
    let random = &mut random;
    let image = any_image(run, random);
    let (capacity, len, faults_len) = spoilt_lengths(random, &image);
    let bytes = lengthened(&image.bytes, len);
    let faults = lengthened(&image.faults, faults_len);
    let address = address(random, capacity);
    let mut faults = faults;
    if let Some(fault) = faults.get_mut(address as usize / 256).filter(|_| random.one_in(3)) {
        *fault = random.byte();
    }
    let mut target = [0u8; 300];
    random.fill(&mut target);
    let target_len = match random.below(4) {
        0 => 256 - (address % 256) as usize,
        1 => random.below(300) as usize,
        2 => random.below(20) as usize,
        _ => 256,
    };
    let target = &target[..target_len];
    let mut keep = [0u8; 257];
    random.fill(&mut keep);
    let keep = &keep[..if random.one_in(16) { random.pick(&[0, 255, 257]) } else { 256 }];
    let reply = if random.flag() { 0 } else { random.byte() };
    let asked = || format!("capacity {capacity}, image {len}, address {address}, {target_len} bytes, keep {}, reply {reply}", keep.len());
    run.lent(
        "page_program",
        &bytes,
        asked,
        |image| ours::page_program(capacity, image, address, target, keep, reply),
        |image| theirs::page_program(capacity, image, address, target, keep, reply),
    );
    let sector = if random.one_in(4) { address } else { address / 4096 * 4096 };
    run.lent(
        "erase_sector_4k",
        &bytes,
        || format!("capacity {capacity}, image {len}, address {sector}, reply {reply}"),
        |image| ours::erase_sector_4k(capacity, image, sector, reply),
        |image| theirs::erase_sector_4k(capacity, image, sector, reply),
    );
    run.row(
        "read",
        target_len,
        || format!("capacity {capacity}, image {len}, faults {faults_len}, address {address}, {target_len} bytes"),
        |output| ours::read(capacity, &bytes, &faults, address, output),
        |output| theirs::read(capacity, &bytes, &faults, address, output),
    );
}

fn address(random: &mut Seeded, capacity: u32) -> u32 {
    let inside = random.below(u64::from(capacity.max(1))) as u32;
    match random.below(6) {
        0 => inside / 256 * 256,
        1 => inside,
        2 => inside / 4096 * 4096,
        3 => capacity.wrapping_add(random.below(3) as u32).wrapping_sub(1),
        4 => random.number(),
        _ => inside / 256 * 256 + random.below(4) as u32,
    }
}

// ---- images

fn any_image(run: &mut Run, random: &mut Seeded) -> Image {
    let capacity = images::capacity(random);
    let image = images::image(random, capacity);
    run.shape.clone_from(&image.shape);
    image
}

/// Mostly the lengths that the image has; sometimes a capacity or a length that is refused.
fn spoilt_lengths(random: &mut Seeded, image: &Image) -> (u32, usize, usize) {
    let (mut capacity, mut len, mut faults_len) = (image.capacity, image.bytes.len(), image.faults.len());
    match random.below(60) {
        0 => capacity = random.number(),
        1 => capacity = random.pick(&[0, 16_384, 16_781_312, image.capacity + 1, image.capacity + 4096]),
        2 => len = random.pick(&[0, len - 1, len + 1, len + 4096]),
        3 => faults_len = random.pick(&[0, faults_len - 1, faults_len + 1, 2 * faults_len]),
        4 => {
            len -= 1;
            faults_len += 1;
        }
        _ => {}
    }
    (capacity, len, faults_len)
}

fn lengthened(bytes: &[u8], len: usize) -> Vec<u8> {
    let mut bytes = bytes.to_vec();
    bytes.resize(len, 0xa5);
    bytes
}

pub fn image(run: &mut Run, index: u64) {
    let mut random = run.begin("images", index);
    let image = any_image(run, &mut random);
    ask(run, &mut random, &image);
    mark(run, &mut random, &image);
}

/// A large image, with many flights to list and to walk.
pub fn large(run: &mut Run, index: u64) {
    let mut random = run.begin("large", index);
    let capacity = images::large_capacity(&mut random);
    let image = images::image(&mut random, capacity);
    run.shape.clone_from(&image.shape);
    ask(run, &mut random, &image);
    mark(run, &mut random, &image);
}

/// A flight to ask for: one that was laid, one beside it, or a limit.
fn flight(random: &mut Seeded, image: &Image) -> u32 {
    if image.flights.is_empty() || random.one_in(5) {
        return random.number();
    }
    let laid = random.pick(&image.flights);
    match random.below(6) {
        0 => laid.wrapping_add(1),
        1 => laid.wrapping_sub(1),
        _ => laid,
    }
}

fn ask(run: &mut Run, random: &mut Seeded, image: &Image) {
    let (capacity, len, faults_len) = spoilt_lengths(random, image);
    let spoilt = len != image.bytes.len() || faults_len != image.faults.len();
    let (bytes, faults);
    let (bytes, faults): (&[u8], &[u8]) = if spoilt {
        (bytes, faults) = (lengthened(&image.bytes, len), lengthened(&image.faults, faults_len));
        (&bytes, &faults)
    } else {
        (&image.bytes, &image.faults)
    };
    let before = bytes.to_vec();
    let lens = format!("capacity {capacity}, image {len}, faults {faults_len}");
    let scanned = row!(run, random, 9, scan_log(capacity, bytes, faults), "{lens}");
    let mut used = vec![image.used];
    if scanned == 0 && run.last_row().len() == 9 {
        used.push(u32::from_le_bytes(run.last_row()[..4].try_into().unwrap()));
    }
    used.push(random.below(u64::from(image.pages()) + 2) as u32);
    used.push(random.number());
    row!(run, random, 11, explain(capacity, bytes, faults), "{lens}");
    for index in
        [0, image.used.saturating_sub(1), image.used, image.pages(), random.below(u64::from(image.pages())) as u32, random.number()]
    {
        row!(run, random, 5, page_flight_id(capacity, bytes, faults, index), "{lens}, page {index}");
    }
    for (i, used) in used.into_iter().enumerate() {
        let rounds = if i == 0 { 6 } else { 2 };
        search(run, random, image, used, rounds, (capacity, bytes, faults), &lens);
    }
    row!(run, random, 1, read_header(capacity, bytes, faults), "{lens}");
    for _ in 0..3 {
        let flight = flight(random, image);
        row!(run, random, 1, is_synced(capacity, bytes, faults, flight), "{lens}, flight {flight}");
        row!(run, random, 6, next_mark_step(capacity, bytes, faults, flight), "{lens}, flight {flight}");
    }
    run.bytes("a reading call", &|| lens.clone(), "the lent image", bytes, &before);
}

fn search(run: &mut Run, random: &mut Seeded, image: &Image, used: u32, rounds: u32, lent: (u32, &[u8], &[u8]), lens: &str) {
    let (capacity, bytes, faults) = lent;
    for _ in 0..rounds {
        let flight = flight(random, image);
        let found = row!(run, random, 13, find_flight(capacity, bytes, faults, used, flight), "{lens}, used {used}, flight {flight}");
        let mut pages = random.number();
        if found == 0 && run.last_row().len() == 13 && !random.one_in(6) {
            let found = u32::from_le_bytes(run.last_row()[9..].try_into().unwrap());
            pages = random.pick(&[found, found, found.wrapping_add(1), found.wrapping_sub(1)]);
        }
        let (is_recording, recording) = recording(random, image, flight);
        run.row(
            "check_ack",
            0,
            || format!("{lens}, used {used}, recording {is_recording} {recording}, flight {flight}, pages {pages}"),
            |_| ours::check_ack(capacity, bytes, faults, used, is_recording, recording, flight, pages),
            |_| theirs::check_ack(capacity, bytes, faults, used, is_recording, recording, flight, pages),
        );
    }
    for end in [used, random.below(u64::from(image.pages()) + 2) as u32] {
        row!(run, random, 13, older_flight(capacity, bytes, faults, end), "{lens}, end {end}");
    }
    let other = flight(random, image);
    let (is_recording, recording) = recording(random, image, other);
    let asked = format!("{lens}, used {used}, recording {is_recording} {recording}");
    row!(run, random, 98, unsynced_flights(capacity, bytes, faults, used, is_recording, recording), "{asked}");
    row!(run, random, 1, all_synced(capacity, bytes, faults, used, is_recording, recording), "{asked}");
    row!(run, random, 1, all_synced(capacity, bytes, faults, used, 0, recording), "{lens}, used {used}, nothing recorded");
}

fn recording(random: &mut Seeded, image: &Image, asked: u32) -> (u8, u32) {
    let flag = random.pick(&[0, 0, 0, 1, 2, 255]);
    let recorded = match random.below(3) {
        0 => asked,
        1 => flight(random, image),
        _ => random.pick(&[0, 1, asked.wrapping_add(1)]),
    };
    (flag, recorded)
}

/// A flight marked: each step planned and started on both sides, with replies and masks, until it is done; and a step made up.
fn mark(run: &mut Run, random: &mut Seeded, image: &Image) {
    let capacity = image.capacity;
    let faults = vec![0u8; image.faults.len()];
    let marked = if random.one_in(4) { flight(random, image) } else { random.from_to(1, 32_704) as u32 };
    let mut bytes = image.bytes.clone();
    for turn in 0..5 {
        let planned = run.row(
            "next_mark_step",
            6,
            || format!("flight {marked}, turn {turn} of a mark"),
            |answer| ours::next_mark_step(capacity, &bytes, &faults, marked, answer),
            |answer| theirs::next_mark_step(capacity, &bytes, &faults, marked, answer),
        );
        if planned != 0 {
            break;
        }
        let step: [u8; 6] = run.last_row().try_into().unwrap();
        bytes = start_step(run, random, capacity, &bytes, step, 256);
        if step[0] == 3 {
            break;
        }
    }
    let mut made_up = [0u8; 6];
    random.fill(&mut made_up);
    made_up[0] = random.pick(&[0, 1, 2, 3, 4, 255]);
    made_up[1..5].copy_from_slice(&address(random, capacity).to_le_bytes());
    let keep_len = if random.one_in(8) { random.pick(&[0, 255, 257]) } else { 256 };
    let other = if random.one_in(16) { random.number() } else { capacity };
    start_step(run, random, other, &bytes, made_up, keep_len);
}

fn start_step(run: &mut Run, random: &mut Seeded, capacity: u32, bytes: &[u8], step: [u8; 6], keep_len: usize) -> Vec<u8> {
    let (kind, address, value) = (step[0], u32::from_le_bytes(step[1..5].try_into().unwrap()), step[5]);
    let reply = if random.one_in(3) { random.byte() } else { 0 };
    let mut keep = [0u8; 257];
    random.fill(&mut keep);
    let keep = &keep[..keep_len];
    run.lent(
        "start_mark_step",
        bytes,
        || format!("capacity {capacity}, kind {kind}, address {address}, value {value}, keep {keep_len}, reply {reply}"),
        |image| ours::start_mark_step(capacity, image, kind, address, value, keep, reply),
        |image| theirs::start_mark_step(capacity, image, kind, address, value, keep, reply),
    )
}

// ---- every one of a small set

/// Every sequence of eight pages that are blank, whole, torn or whole with the next flight, before blank pages or before used ones.
pub const PATTERNS: u64 = 2 * 65_536;

pub fn pattern(run: &mut Run, index: u64) {
    let mut random = run.begin("patterns", index);
    let mut image = Image::erased(20_480);
    let mut flight = 3;
    for page in 0..16 {
        let state = match page {
            0..8 => index >> (2 * page) & 3,
            _ if index >= 65_536 => 1,
            _ => 0,
        };
        if state == 3 {
            flight += 1;
        }
        let bytes = match state {
            0 => [0xff; 256],
            2 => [0; 256],
            _ => crate::blackbox::encode_page(flight, page as u32, &[]).unwrap(),
        };
        image.page_mut(page as u32).copy_from_slice(&bytes);
    }
    image.used = if index >= 65_536 { 16 } else { 8 };
    image.flights = vec![2, 3, 4, 5, flight, flight + 1];
    run.shape = format!("pattern {index}");
    let (capacity, bytes, faults) = (20_480, &image.bytes[..], &image.faults[..]);
    row!(run, &mut random, 9, scan_log(capacity, bytes, faults), "");
    row!(run, &mut random, 11, explain(capacity, bytes, faults), "");
    for used in [image.used, random.below(17) as u32] {
        search(run, &mut random, &image, used, 1, (capacity, bytes, faults), "");
    }
}

/// Every damage of one bit in a page, every header of the ledger that is one bit off or cut short, every number of an ERR text, and
/// every pair of limits at the calls that take two numbers.
pub fn exhaustive(run: &mut Run) {
    let mut random = run.begin("exhaustive", 0);
    let page = images::whole_page(&mut random, 7, 9);
    for bit in 0..2048 {
        let mut page = page;
        page[bit / 8] ^= 1 << (bit % 8);
        row!(run, &mut random, 9, decode_page(&page), "bit {bit}");
    }
    for number in 0..=255 {
        row!(run, &mut random, 60, ack_response(number), "{number}");
    }
    for capacity in LIMITS {
        for other in LIMITS {
            row!(run, &mut random, 5, log_page_address(capacity, other), "{capacity}, {other}");
            row!(run, &mut random, 5, log_erase_sector_address(capacity, other), "{capacity}, {other}");
            row!(run, &mut random, 5, bit_location(capacity, other), "{capacity}, {other}");
        }
    }
    headers(run, &mut random);
    lists(run, &mut random);
}

fn headers(run: &mut Run, random: &mut Seeded) {
    let mut image = Image::erased(20_480);
    let faults = image.faults.clone();
    for state in 0..64 + 9 {
        image.ledger_mut()[..8].fill(0xff);
        if state < 64 {
            image.ledger_mut()[..8].copy_from_slice(b"FWSYNC01");
            image.ledger_mut()[state / 8] ^= 1 << (state % 8);
        } else {
            image.ledger_mut()[..state - 64].copy_from_slice(&b"FWSYNC01"[..state - 64]);
        }
        let bytes = &image.bytes;
        row!(run, random, 1, read_header(20_480, bytes, &faults), "header {state}");
        for flight in [0, 1, 8, 9, 32_704, 32_705] {
            row!(run, random, 1, is_synced(20_480, bytes, &faults, flight), "header {state}, flight {flight}");
            row!(run, random, 6, next_mark_step(20_480, bytes, &faults, flight), "header {state}, flight {flight}");
        }
    }
}

/// Logs of 0 to 16 flights, of which some are acknowledged: lists of more than eight.
fn lists(run: &mut Run, random: &mut Seeded) {
    for flights in 0..=16 {
        for acknowledged in 0..=flights {
            let mut image = Image::erased(20_480);
            image.ledger_mut()[..8].copy_from_slice(b"FWSYNC01");
            for page in 0..flights {
                let bytes = crate::blackbox::encode_page(page + 1, 0, &[]).unwrap();
                image.page_mut(page).copy_from_slice(&bytes);
                if (page + flights) % 17 < acknowledged {
                    image.ledger_mut()[8 + page as usize / 8] &= !(1 << (page % 8));
                }
            }
            let (bytes, faults) = (&image.bytes, &image.faults);
            for recording in 0..=flights + 1 {
                let asked = format!("{flights} flights, {acknowledged} acknowledged, recording {recording}");
                row!(run, random, 98, unsynced_flights(20_480, bytes, faults, flights, 1, recording), "{asked}");
                row!(run, random, 1, all_synced(20_480, bytes, faults, flights, u8::from(recording > flights), recording), "{asked}");
            }
        }
    }
}

// ---- the writer

/// The image that a script is played on, and the script.
pub fn life_of(run: &mut Run, index: u64) -> (Image, Vec<Op>) {
    let mut random = run.begin("lives", index);
    let is_life = index % 4 != 3;
    // Small logs fill, larger ones hold a whole life.
    let capacity = random.pick(&[20_480, 20_480, 24_576, 61_440]);
    let image =
        if is_life && !random.one_in(8) { Image::erased(capacity) } else { theirs::without_faults(images::image(&mut random, capacity)) };
    let ops = scripts::script(&mut random, is_life, image.pages());
    run.shape = format!("{} operations on an image of {capacity}: {}", ops.len(), image.shape);
    (image, ops)
}

pub fn life(run: &mut Run, board: &mut Board, index: u64) {
    let (image, ops) = life_of(run, index);
    let script: Vec<u8> = ops.iter().flat_map(theirs::script_row).collect();
    played(run, board, image.capacity, &image.bytes, &script, ops.len());
}

/// A row of a script with a byte that no operation has, a script cut short, or lengths that don't fit: refused, nothing altered.
pub fn no_script(run: &mut Run, board: &mut Board, index: u64) {
    let (image, ops) = life_of(run, index);
    let mut random = run.begin("no_scripts", index);
    let ops = &ops[..ops.len().min(4)];
    let mut script: Vec<u8> = ops.iter().flat_map(theirs::script_row).collect();
    let (mut capacity, mut rows) = (image.capacity, ops.len());
    match random.below(6) {
        0 => script.truncate(random.below(script.len() as u64) as usize),
        1 => rows = random.pick(&[0, rows + 1, rows.saturating_sub(1)]),
        2 => capacity = random.number(),
        _ => {
            // A byte that says nothing in its row, or one whose value no row has.
            let row = random.below(ops.len() as u64) as usize * theirs::SCRIPT_ROW;
            let at = row + random.pick(&[0, 1, 2, 3, 4, 5, 6, 7, 16, 31, 80, 81, 287]);
            script[at] = random.byte();
            // A drain may have another limit in a script, but not in the Rust.
            if script[row + 2] == 1 || theirs::script_op(&script[row..row + theirs::SCRIPT_ROW]).is_some() {
                script[row + 7] = random.from_to(1, 255) as u8;
            }
        }
    }
    played(run, board, capacity, &image.bytes, &script, rows);
}

fn played(run: &mut Run, board: &mut Board, capacity: u32, image: &[u8], script: &[u8], rows: usize) {
    let (mut one, mut other) = (image.to_vec(), image.to_vec());
    let asked = || format!("{} rows", script.len() / theirs::SCRIPT_ROW);
    let len = rows * theirs::PLAYED_ROW;
    let reply = run.row(
        "rig",
        len,
        asked,
        |answer| ours::rig(capacity, &mut one, script, answer),
        |answer| theirs::rig(board, capacity, &mut other, script, answer),
    );
    run.bytes("rig", &asked, "the image", &one, &other);
    if reply == 0 {
        run.played(script);
    }
}
