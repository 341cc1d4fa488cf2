//! A fixed list: recipes in text, one call to a line, and the Rust's answers to them, so that a program without Rust at hand can replay
//! it. The program is the crate run_replay: its stdin is the list, its stdout the answers. They were made by
//!
//!   oracle/run --make-list --images 60 --lives 60 --seed 7 >crates/run_replay/stdin
//!   oracle/run --answers crates/run_replay/stdin >crates/run_replay/stdout
//!
//! A line is a word and decimal numbers, parted by single spaces. Lines that build an image print nothing:
//!
//!   image C            an erased image of capacity C, no fault bytes set, a writer before its first power-on
//!   pages P N F R      N whole pages of flight F from page P on, sequences from 0, R records each, numbered from 5 * page on
//!   fill A N V         N bytes of V from address A on
//!   flip A B           bit B of the byte at A turned over
//!   fault I V          fault byte I is V
//!
//! Lines that ask print the reply and the row that include/stipeflute.h gives the call, in hexadecimal, without the zeros behind a text:
//!
//!   scan | explain | flight I | find U F | older E | header | bit F | synced F | plan F | list U S R | all U S R | ack U S R F P
//!   step K A V M Y     start_mark_step of kind K at address A with value V, mask number M and reply Y
//!   page P | record P I   decode_page and record_from_page of the page at P
//!   crc A N            the checksum of N bytes from address A on
//!   layout C | sectors C | ledger C | address C P | erase C K | place C F   of any capacity; place is bit_location
//!   scratch | err N    the scratch page, and the text for refusal N
//!   lines K M F        the lines of K flights, more M; entry i is flight F + i, start (i + 1) F mod 2^32, i pages
//!
//! Lines that play the writer print what the player tells after them, in decimal: outcome, writable, recording, unfinished (a flag),
//! flush start (a flag), queue length; pages_written, records_dropped, write_faults; next page, next flight, unfinished flight, flush
//! start:
//!
//!   power | offers N K S | drain A D S X M | write S X M | recover P F W | reset | flush B C
//!
//! where offers are K records numbered N, N + S, .., told of once after the last; A is armed, D record_while_disarmed, S the programs that
//! succeed, X what the next does (0 busy, 1 fault, 2 cut). Byte j of record number n is (31 n + 7 j + n j) mod 256, so an odd number is an
//! armed record. Byte i of mask number m is m (i + 1) mod 256.

use crate::blackbox::{FLASH_PAGE_LEN, FlightRecord, RECORD_LEN, encode_page};
use crate::compare::{Run, hex};
use crate::images::Image;
use crate::layout::StorageLayout;
use crate::life::{Board, Next, Op, Programs};
use crate::seeded::Seeded;
use crate::{ours, theirs};
use std::string::String;
use std::vec::Vec;

pub fn record_number(n: u32) -> FlightRecord {
    let mut bytes = [0u8; RECORD_LEN];
    for (j, byte) in bytes.iter_mut().enumerate() {
        let j = j as u32;
        *byte = n.wrapping_mul(31).wrapping_add(7 * j).wrapping_add(n.wrapping_mul(j)) as u8;
    }
    FlightRecord::decode(&bytes)
}

pub fn mask_number(m: u32) -> [u8; FLASH_PAGE_LEN] {
    std::array::from_fn(|i| m.wrapping_mul(i as u32 + 1) as u8)
}

fn whole_page(page: u32, flight: u32, sequence: u32, count: u32) -> [u8; FLASH_PAGE_LEN] {
    let records: Vec<FlightRecord> = (0..count).map(|i| record_number(5 * page + i)).collect();
    encode_page(flight, sequence, &records).unwrap()
}

/// The eight entries of a `lines` line.
fn entries(flight: u32) -> Vec<u8> {
    (0..8u32).flat_map(|i| [flight.wrapping_add(i), flight.wrapping_mul(i + 1), i]).flat_map(u32::to_le_bytes).collect()
}

/// A line's writer operations, if it has any.
fn operations(word: &str, n: &[u32]) -> Option<Vec<Op>> {
    let programs = |succeed: u32, next: u32, mask: u32| Programs {
        succeed,
        next: [Next::Busy, Next::Fault, Next::Cut][next as usize],
        keep: mask_number(mask),
    };
    let op = match word {
        "offers" => return Some((0..n[1]).map(|i| Op::Offer(record_number(n[0] + i * n[2]))).collect()),
        "power" => Op::PowerOn,
        "drain" => Op::Drain { armed: n[0] != 0, record_while_disarmed: n[1] != 0, programs: programs(n[2], n[3], n[4]) },
        "write" => Op::WritePending { programs: programs(n[0], n[1], n[2]) },
        "recover" => Op::Recover { next_page: n[0], next_flight: n[1], writable: n[2] != 0 },
        "reset" => Op::ResetAfterErase,
        "flush" => Op::Flush { write_back_pending: n[0] != 0, now_ms: u64::from(n[1]) },
        _ => return None,
    };
    Some(vec![op])
}

/// A row that the player tells, as numbers.
fn told_text(row: &[u8]) -> String {
    let mut parts: Vec<String> = row[..6].iter().map(u8::to_string).collect();
    parts.extend(row[8..32].chunks(4).map(|word| u32::from_le_bytes(word.try_into().unwrap()).to_string()));
    parts.push(u64::from_le_bytes(row[32..].try_into().unwrap()).to_string());
    parts.join(" ")
}

/// Plays a list, line by line, on the Rust and on the exports.
pub struct Player {
    image: Image,
    board: Board,
    /// The writer's operations since the image was made, and that image: the export's player begins anew each time.
    began: Vec<u8>,
    script: Vec<u8>,
}

impl Player {
    pub fn new() -> Self {
        Self { image: Image::erased(20_480), board: Board::new(), began: Vec::new(), script: Vec::new() }
    }

    /// What the line prints, if anything.
    pub fn line(&mut self, run: &mut Run, line: &str) -> Option<String> {
        let mut parts = line.split(' ');
        let word = parts.next().unwrap();
        let n: Vec<u32> = parts.map(|part| part.parse().expect("a decimal number")).collect();
        if self.builds(word, &n) {
            return None;
        }
        if let Some(ops) = operations(word, &n) {
            return ops.iter().map(|op| self.plays(run, line, op)).last();
        }
        Some(self.asks(run, line, word, &n))
    }

    fn builds(&mut self, word: &str, n: &[u32]) -> bool {
        match word {
            "image" => {
                self.image = Image::erased(n[0]);
                self.board.power_off();
            }
            "pages" => {
                for i in 0..n[1] {
                    let page = whole_page(n[0] + i, n[2], i, n[3]);
                    self.image.page_mut(n[0] + i).copy_from_slice(&page);
                }
            }
            "fill" => self.image.bytes[n[0] as usize..][..n[1] as usize].fill(n[2] as u8),
            "flip" => self.image.bytes[n[0] as usize] ^= 1 << n[1],
            "fault" => self.image.faults[n[0] as usize] = n[1] as u8,
            _ => return false,
        }
        self.script.clear();
        true
    }

    fn plays(&mut self, run: &mut Run, line: &str, op: &Op) -> String {
        if self.script.is_empty() {
            self.began.clone_from(&self.image.bytes);
        }
        self.script.extend_from_slice(&theirs::script_row(op));
        let layout = StorageLayout::new(self.image.capacity).unwrap();
        let outcome = self.board.play(layout, &mut self.image.bytes, op);
        let told = theirs::played_row(outcome, self.board.state());
        self.exports_play(run, line, &told);
        told_text(&told)
    }

    #[cfg(alone)]
    fn exports_play(&mut self, _run: &mut Run, _line: &str, _told: &[u8]) {}

    #[cfg(not(alone))]
    fn exports_play(&mut self, run: &mut Run, line: &str, told: &[u8]) {
        let mut image = self.began.clone();
        let mut answer = vec![0u8; self.script.len() / theirs::SCRIPT_ROW * theirs::PLAYED_ROW];
        let reply = ours::rig(self.image.capacity, &mut image, &self.script, &mut answer);
        if reply != 0 {
            run.differ("rig", line, &format!("reply {reply:#x}"));
        }
        run.bytes("rig", &|| line.into(), "answer", &answer[answer.len() - theirs::PLAYED_ROW..], told);
        run.bytes("rig", &|| line.into(), "the image", &image, &self.image.bytes);
    }

    fn asks(&mut self, run: &mut Run, line: &str, word: &str, n: &[u32]) -> String {
        let (c, bytes, faults) = (self.image.capacity, &self.image.bytes[..], &self.image.faults[..]);
        macro_rules! both {
            ($len:expr, $call:ident($($arg:expr),*)) => {
                run.row(
                    stringify!($call),
                    $len,
                    || line.into(),
                    |answer| ours::$call($($arg,)* answer),
                    |answer| theirs::$call($($arg,)* answer),
                )
            };
        }
        let reply = match word {
            "scan" => both!(9, scan_log(c, bytes, faults)),
            "explain" => both!(11, explain(c, bytes, faults)),
            "flight" => both!(5, page_flight_id(c, bytes, faults, n[0])),
            "find" => both!(13, find_flight(c, bytes, faults, n[0], n[1])),
            "older" => both!(13, older_flight(c, bytes, faults, n[0])),
            "header" => both!(1, read_header(c, bytes, faults)),
            "bit" => both!(5, bit_location(c, n[0])),
            "synced" => both!(1, is_synced(c, bytes, faults, n[0])),
            "plan" => both!(6, next_mark_step(c, bytes, faults, n[0])),
            "list" => both!(98, unsynced_flights(c, bytes, faults, n[0], n[1] as u8, n[2])),
            "all" => both!(1, all_synced(c, bytes, faults, n[0], n[1] as u8, n[2])),
            "page" => both!(9, decode_page(self.image.page(n[0]))),
            "record" => both!(48, record_from_page(self.image.page(n[0]), n[1])),
            "crc" => both!(4, crc32(&bytes[n[0] as usize..][..n[1] as usize])),
            "layout" => both!(20, storage_layout(n[0])),
            "sectors" => both!(4, log_sector_count(n[0])),
            "ledger" => both!(4, sync_ledger_address(n[0])),
            "address" => both!(5, log_page_address(n[0], n[1])),
            "erase" => both!(5, log_erase_sector_address(n[0], n[1])),
            "place" => both!(5, bit_location(n[0], n[1])),
            "scratch" => both!(256, scratch_test_page()),
            "err" => both!(60, ack_response(n[0] as u8)),
            "lines" => both!(476, unsynced_lines(&entries(n[2]), n[0], n[1] as u8)),
            "ack" => run.row(
                "check_ack",
                0,
                || line.into(),
                |_| ours::check_ack(c, bytes, faults, n[0], n[1] as u8, n[2], n[3], n[4]),
                |_| theirs::check_ack(c, bytes, faults, n[0], n[1] as u8, n[2], n[3], n[4]),
            ),
            "step" => return self.steps(run, line, n),
            _ => panic!("a line of no list: {line}"),
        };
        let mut row = run.last_row();
        if reply == 0 && matches!(word, "err" | "lines") {
            row = &row[..4 + row[0] as usize + 256 * row[1] as usize];
        }
        if reply != 0 || row.is_empty() { format!("{reply}") } else { format!("0 {}", hex(row)) }
    }

    fn steps(&mut self, run: &mut Run, line: &str, n: &[u32]) -> String {
        let (c, keep) = (self.image.capacity, mask_number(n[3]));
        let mut reply = 0;
        self.image.bytes = run.lent(
            "start_mark_step",
            &self.image.bytes,
            || line.into(),
            |image| ours::start_mark_step(c, image, n[0] as u8, n[1], n[2] as u8, &keep, n[4] as u8),
            |image| {
                reply = theirs::start_mark_step(c, image, n[0] as u8, n[1], n[2] as u8, &keep, n[4] as u8);
                reply
            },
        );
        self.script.clear();
        format!("{reply}")
    }
}

impl Default for Player {
    fn default() -> Self {
        Self::new()
    }
}

// ---- making a list

/// A log whose newest flight has the largest number.
const LAST_FLIGHT: [&str; 3] = ["image 20480", "pages 0 2 4294967295 5", "scan"];

/// Calls without an image, images with questions, and writers' lives.
pub fn make(seed: u64, images: u64, lives: u64) -> Vec<String> {
    let mut lines = Vec::new();
    for index in 0..images {
        make_calls(&mut Seeded::new(seed, "calls", index), &mut lines, index);
    }
    for index in 0..images {
        make_image(&mut Seeded::new(seed, "images", index), &mut lines);
    }
    lines.extend(LAST_FLIGHT.map(String::from));
    for index in 0..lives {
        make_life(&mut Seeded::new(seed, "lives", index), &mut lines, index % 3 == 2);
    }
    lines
}

/// Calls that need no image.
fn make_calls(random: &mut Seeded, lines: &mut Vec<String>, index: u64) {
    if index == 0 {
        lines.push("scratch".into());
        lines.extend((0..=17).map(|number| format!("err {number}")));
    }
    let capacity = if random.flag() { 4096 * random.from_to(4, 4098) as u32 } else { random.number() };
    lines.push(format!("layout {capacity}"));
    lines.push(format!("sectors {capacity}"));
    lines.push(format!("ledger {capacity}"));
    let pages = StorageLayout::new(capacity).map_or(16, |layout| layout.log_page_count);
    lines.push(format!("address {capacity} {}", random.pick(&[0, pages - 1, pages])));
    lines.push(format!("erase {capacity} {}", random.pick(&[0, capacity / 4096 - capacity.min(4096) / 4096, pages / 16, pages / 16 + 1])));
    lines.push(format!("place {capacity} {}", random.pick(&[0, 1, 8, 9, 32_704, 32_705, random.clone().number()])));
    lines.push(format!("lines {} {} {}", random.below(10), random.below(3), random.number()));
}

fn make_image(random: &mut Seeded, lines: &mut Vec<String>) {
    let capacity = random.pick(&[20_480u32, 20_480, 24_576, 61_440]);
    let pages = (capacity - 16_384) / 256;
    lines.push(format!("image {capacity}"));
    let first = random.pick(&[1u32, 1, 3, 32_700, 4_294_967_290]);
    let (mut page, mut flight) = (0, first);
    let used = random.from_to(0, u64::from(pages)) as u32;
    while page < used {
        let run = random.from_to(1, 4).min(u64::from(used - page)) as u32;
        let records = if random.one_in(3) { random.from_to(0, 5) } else { 5 };
        lines.push(format!("pages {page} {run} {flight} {records}"));
        page += run;
        flight = if random.one_in(8) { random.from_to(1, 9) as u32 } else { flight.wrapping_add(1) };
    }
    for _ in 0..random.below(3) {
        let torn = if random.flag() { used.saturating_sub(1) } else { random.below(u64::from(pages)) as u32 };
        let at = 12_288 + 256 * torn;
        lines.push(match random.below(4) {
            0 => format!("fill {at} 256 {}", random.pick(&[0, 255])),
            1 => format!("fill {} {} 255", at + 128, random.from_to(1, 128)),
            _ => format!("flip {} {}", at + random.below(256) as u32, random.below(8)),
        });
    }
    let ledger = capacity - 4096;
    if !random.one_in(4) {
        for (i, byte) in b"FWSYNC01".iter().enumerate() {
            lines.push(format!("fill {} 1 {byte}", ledger as usize + i));
        }
    }
    for _ in 0..random.below(4) {
        lines.push(format!("fill {} 1 {}", ledger + 8 + random.below(3) as u32, random.byte()));
    }
    if random.one_in(3) {
        lines.push(format!("fault {} {}", random.from_to(48, u64::from(capacity / 256 - 1)), random.from_to(1, 255)));
    }
    questions(random, lines, used, first, flight, ledger);
}

fn questions(random: &mut Seeded, lines: &mut Vec<String>, used: u32, first: u32, last: u32, ledger: u32) {
    let flight = |random: &mut Seeded| match random.below(6) {
        0 => random.number(),
        1 => last,
        _ => first.wrapping_add(random.below(8) as u32),
    };
    lines.push("scan".into());
    lines.push("explain".into());
    lines.push(format!("flight {}", random.below(u64::from(used) + 2)));
    lines.push(format!("page {}", used.saturating_sub(1)));
    lines.push(format!("record {} {}", used.saturating_sub(1), random.below(6)));
    for _ in 0..3 {
        let asked = flight(random);
        lines.push(format!("find {used} {asked}"));
        lines.push(format!("ack {used} {} {} {asked} {}", random.below(2), flight(random), random.from_to(1, 4)));
        lines.push(format!("synced {asked}"));
    }
    lines.push(format!("older {used}"));
    lines.push(format!("list {used} {} {}", random.below(2), flight(random)));
    lines.push(format!("all {used} 0 0"));
    lines.push("header".into());
    let marked = flight(random);
    lines.push(format!("bit {marked}"));
    lines.push(format!("plan {marked}"));
    let at = ledger + random.pick(&[0, 0, 8, 255, 256]);
    lines.push(format!("step {} {at} {} {} {}", random.below(4), random.byte(), random.byte(), random.pick(&[0, 0, 9])));
    lines.push(format!("plan {marked}"));
    lines.push(format!("crc {ledger} 4096"));
}

fn make_life(random: &mut Seeded, lines: &mut Vec<String>, any: bool) {
    lines.push("image 20480".into());
    let mut number = random.below(1000) as u32 * 2 + 1;
    let trouble = random.pick(&[2u64, 4, 12]);
    let programs = |random: &mut Seeded| {
        if random.one_in(trouble) {
            format!("{} {} {}", random.pick(&[0, 0, 1, 2]), random.below(3), random.byte())
        } else {
            "16 1 0".into()
        }
    };
    lines.push("power".into());
    for _ in 0..random.from_to(4, 12) {
        for _ in 0..random.below(3) {
            // Odd numbers are armed records; a step of one alternates, and even ones alone end the flight.
            let (count, step) = (random.pick(&[1, 3, 5, 6, 16]), random.pick(&[2, 2, 2, 1]));
            let from = number + u32::from(random.one_in(6));
            lines.push(format!("offers {from} {count} {step}"));
            number += 2 * count;
        }
        lines.push(format!("drain {} {} {}", random.below(2), u8::from(random.one_in(6)), programs(random)));
        match random.below(if any { 9 } else { 6 }) {
            0 => lines.push("power".into()),
            1 | 2 => lines.push(format!("write {}", programs(random))),
            6 => lines.push(format!("recover {} {} {}", random.below(18), random.number(), random.below(2))),
            7 => lines.push("reset".into()),
            8 => lines.push(format!("flush {} {}", random.below(2), random.below(400))),
            _ => {}
        }
    }
    lines.push("power".into());
    lines.push("scan".into());
    lines.push("explain".into());
    lines.push("crc 12288 4096".into());
}

/// The Rust's answers to the lines of a list, which are also the exports' where these are linked.
pub fn answer(run: &mut Run, list: &str) -> Vec<String> {
    let text = std::fs::read_to_string(list).unwrap_or_else(|error| panic!("{list}: {error}"));
    let mut player = Player::new();
    let mut answers = Vec::new();
    for (number, line) in text.lines().enumerate() {
        run.shape = format!("line {} of {list}", number + 1);
        answers.extend(player.line(run, line));
    }
    answers
}
