//! Measures the Rust and the C exports in one run, on the same inputs, both built for release, and prints the table of
//! docs/PERFORMANCE.md. Each round times one side and then the other; the ratio is the median of the rounds' ratios.
//!
//! Times are those of this thread on its processor, so that other programs on the machine weigh little.
//!
//! The exports lay their answer into a row; the Rust's functions return a value. Buffers are warm: each was read in the round before.
//!
//! Below the table: zlib's crc32 on the same bytes, from the system's libz.so.1, and the census program, which has no Rust beside it. Either
//! is left out where it is not at hand, and a line says so.

use oracle::blackbox::{self, FlightRecord};
use oracle::images::Image;
use oracle::layout::StorageLayout;
use oracle::life::{Board, Next, Op, Programs};
use oracle::seeded::Seeded;
use oracle::{images, log_sync, ours, page, records, sync_ledger, theirs};
use std::ffi::{CStr, c_char, c_int, c_ulong, c_void};
use std::hint::black_box;
use std::io::Write;
use std::process::{Command, Stdio};
use std::time::Duration;

const ROUNDS: usize = 151;
const ROUND: Duration = Duration::from_millis(2);

/// Calls that take about one round's time.
fn calls_in_a_round(call: &mut dyn FnMut()) -> u32 {
    let mut calls = 1;
    loop {
        let took = timed(call, calls);
        if took >= ROUND {
            return calls;
        }
        calls = (calls * 2).max((f64::from(calls) * ROUND.as_secs_f64() / took.as_secs_f64().max(1e-9)) as u32 / 2);
    }
}

fn timed(call: &mut dyn FnMut(), calls: u32) -> Duration {
    let began = thread_time();
    for _ in 0..calls {
        call();
    }
    thread_time() - began
}

#[repr(C)]
struct Timespec {
    seconds: i64,
    nanoseconds: i64,
}

unsafe extern "C" {
    fn clock_gettime(clock: i32, time: *mut Timespec) -> i32;
    fn dlopen(name: *const c_char, flags: c_int) -> *mut c_void;
    fn dlsym(library: *mut c_void, name: *const c_char) -> *mut c_void;
    fn getrusage(whose: c_int, usage: *mut [i64; 18]) -> c_int;
}

/// Linux's CLOCK_THREAD_CPUTIME_ID.
const THREAD_CLOCK: i32 = 3;

fn thread_time() -> Duration {
    let mut time = Timespec { seconds: 0, nanoseconds: 0 };
    assert_eq!(unsafe { clock_gettime(THREAD_CLOCK, &mut time) }, 0);
    Duration::new(time.seconds as u64, time.nanoseconds as u32)
}

fn median(mut times: Vec<f64>) -> f64 {
    times.sort_by(f64::total_cmp);
    times[times.len() / 2]
}

fn shown(seconds: f64) -> String {
    match seconds {
        s if s >= 1e-3 => format!("{:.3} ms", s * 1e3),
        s if s >= 1e-6 => format!("{:.3} us", s * 1e6),
        s => format!("{:.1} ns", s * 1e9),
    }
}

fn line(what: &str, input: &str, rust: &[f64], rattle: &[f64]) {
    let ratio = median(rust.iter().zip(rattle).map(|(rust, rattle)| rust / rattle).collect());
    println!("| {what} | {input} | {} | {} | {ratio:.2} |", shown(median(rust.to_vec())), shown(median(rattle.to_vec())));
}

/// Prints a line of the table and gives each side's times, round by round.
fn measure(what: &str, input: &str, mut theirs: impl FnMut(), mut ours: impl FnMut()) -> (Vec<f64>, Vec<f64>) {
    let (their_calls, our_calls) = (calls_in_a_round(&mut theirs), calls_in_a_round(&mut ours));
    let (mut rust, mut rattle) = (Vec::new(), Vec::new());
    for _ in 0..ROUNDS {
        rust.push(timed(&mut theirs, their_calls).as_secs_f64() / f64::from(their_calls));
        rattle.push(timed(&mut ours, our_calls).as_secs_f64() / f64::from(our_calls));
    }
    line(what, input, &rust, &rattle);
    (rust, rattle)
}

fn codec(random: &mut Seeded) {
    let mut bytes = vec![0u8; 65_536];
    random.fill(&mut bytes);
    for (len, said) in [(252, "252 bytes"), (65_536, "65,536 bytes")] {
        let bytes = &bytes[..len];
        let mut row = [0u8; 4];
        measure(
            "crc32",
            said,
            || {
                black_box(page::crc32(black_box(bytes)));
            },
            || {
                black_box(ours::crc32(black_box(bytes), &mut row));
            },
        );
    }
    let rows: [u8; 240] = bytes[..240].try_into().unwrap();
    let mut row = [0u8; 256];
    measure(
        "encode_page",
        "five records as 240 bytes",
        || {
            let rows = black_box(&rows);
            let records: [FlightRecord; 5] = std::array::from_fn(|i| FlightRecord::decode(rows[48 * i..][..48].try_into().unwrap()));
            black_box(blackbox::encode_page(black_box(7), black_box(9), &records)).unwrap();
        },
        || {
            black_box(ours::encode_page(black_box(7), black_box(9), black_box(&rows), 5, &mut row));
        },
    );
    let whole = blackbox::encode_page(7, 9, &images::records(random, 5)).unwrap();
    let mut row = [0u8; 9];
    measure(
        "decode_page",
        "a whole page",
        || {
            black_box(blackbox::decode_page(black_box(&whole))).unwrap();
        },
        || {
            black_box(ours::decode_page(black_box(&whole), &mut row));
        },
    );
    let mut row = [0u8; 48];
    measure(
        "record_from_page",
        "record 4 of a whole page",
        || {
            black_box(blackbox::record_from_page(black_box(&whole), black_box(4))).unwrap();
        },
        || {
            black_box(ours::record_from_page(black_box(&whole), black_box(4), &mut row));
        },
    );
}

/// A full log of the largest capacity: `flights` flights of as many full pages each, `acknowledged` of them from the newest down.
fn full_log(random: &mut Seeded, flights: u32, acknowledged: u32) -> Image {
    let mut image = Image::erased(16_777_216);
    let pages = image.pages();
    let ledger = image.ledger_mut();
    ledger[..8].copy_from_slice(&sync_ledger::SYNC_LEDGER_MAGIC);
    for flight in flights - acknowledged + 1..=flights {
        ledger[8 + (flight as usize - 1) / 8] &= !(1 << ((flight - 1) % 8));
    }
    for index in 0..pages {
        let flight = (u64::from(index) * u64::from(flights) / u64::from(pages)) as u32 + 1;
        let page = blackbox::encode_page(flight, index, &images::records(random, 5)).unwrap();
        image.page_mut(index).copy_from_slice(&page);
    }
    image.used = pages;
    image
}

fn image_calls(image: &Image, said: &str) {
    let capacity = image.capacity;
    let layout = StorageLayout::new(capacity).unwrap();
    let (bytes, faults) = (&image.bytes[..], &image.faults[..]);
    let mut row = [0u8; 9];
    measure(
        "scan_log",
        said,
        || {
            black_box(records::scan_log(layout, theirs::reader(black_box(bytes), faults))).unwrap();
        },
        || {
            black_box(ours::scan_log(capacity, black_box(bytes), faults, &mut row));
        },
    );
    let mut row = [0u8; 13];
    measure(
        "find_flight",
        said,
        || {
            black_box(log_sync::find_flight(layout, &mut theirs::reader(black_box(bytes), faults), image.used, black_box(317))).unwrap();
        },
        || {
            black_box(ours::find_flight(capacity, black_box(bytes), faults, image.used, black_box(317), &mut row));
        },
    );
}

/// A whole page programmed, by each side's own NOR rule: what the device would do is the oracle's stand-in on the Rust's side.
fn programs(random: &mut Seeded) {
    let image = Image::erased(61_440);
    let (mut one, mut other) = (image.bytes.clone(), image.bytes.clone());
    let page = blackbox::encode_page(7, 9, &images::records(random, 5)).unwrap();
    let keep = [0u8; 256];
    measure(
        "page_program",
        "256 bytes at log page 100",
        || {
            black_box(theirs::page_program(61_440, black_box(&mut other), 12_288 + 25_600, black_box(&page), &keep, 0));
        },
        || {
            black_box(ours::page_program(61_440, black_box(&mut one), 12_288 + 25_600, black_box(&page), &keep, 0));
        },
    );
    assert!(one == other, "the two programmed differently");
}

fn acknowledgement(image: &Image, said: &str) {
    let capacity = image.capacity;
    let (bytes, faults) = (&image.bytes[..], &image.faults[..]);
    let layout = StorageLayout::new(capacity).unwrap();
    let found = log_sync::find_flight(layout, &mut theirs::reader(bytes, faults), image.used, 317).unwrap().unwrap();
    let reply = ours::check_ack(capacity, bytes, faults, image.used, 0, 0, 317, found.pages);
    assert_eq!(reply, 0, "the acknowledgement is taken");
    measure(
        "check_ack",
        said,
        || {
            black_box(log_sync::check_ack(
                layout,
                &mut theirs::reader(black_box(bytes), faults),
                image.used,
                None,
                black_box(317),
                found.pages,
            ))
            .unwrap()
            .unwrap();
        },
        || {
            black_box(ours::check_ack(capacity, black_box(bytes), faults, image.used, 0, 0, black_box(317), found.pages));
        },
    );
}

fn sync_calls(image: &Image, said: &str) {
    let capacity = image.capacity;
    let layout = StorageLayout::new(capacity).unwrap();
    let (bytes, faults) = (&image.bytes[..], &image.faults[..]);
    let mut row = [0u8; 98];
    measure(
        "unsynced_flights",
        said,
        || {
            black_box(log_sync::unsynced_flights(layout, &mut theirs::reader(black_box(bytes), faults), image.used, None)).unwrap();
        },
        || {
            black_box(ours::unsynced_flights(capacity, black_box(bytes), faults, image.used, 0, 0, &mut row));
        },
    );
    let mut row = [0u8; 1];
    measure(
        "all_synced",
        said,
        || {
            black_box(log_sync::all_synced(layout, &mut theirs::reader(black_box(bytes), faults), image.used, None)).unwrap();
        },
        || {
            black_box(ours::all_synced(capacity, black_box(bytes), faults, image.used, 0, 0, &mut row));
        },
    );
}

/// A script of passes: so many records offered, then, where asked, a drain that writes them.
fn passes(random: &mut Seeded, count: u32, offers: u32, drains: bool) -> Vec<u8> {
    let programs = Programs { succeed: 99, next: Next::Fault, keep: [0; 256] };
    let mut script = theirs::script_row(&Op::PowerOn).to_vec();
    for _ in 0..count {
        for _ in 0..offers {
            let mut record = images::record(random);
            record.flags |= 1;
            script.extend_from_slice(&theirs::script_row(&Op::Offer(record)));
        }
        if drains {
            let op = Op::Drain { armed: true, record_while_disarmed: false, programs: programs.clone() };
            script.extend_from_slice(&theirs::script_row(&op));
        }
    }
    script
}

/// A script of power-ons, each with so many records offered after it.
fn offers(random: &mut Seeded, count: u32, offers: u32) -> Vec<u8> {
    let mut script = Vec::new();
    for _ in 0..count {
        script.extend_from_slice(&theirs::script_row(&Op::PowerOn));
        for _ in 0..offers {
            script.extend_from_slice(&theirs::script_row(&Op::Offer(images::record(random))));
        }
    }
    script
}

fn drain(random: &mut Seeded) {
    let less = |a: &[f64], b: &[f64]| -> Vec<f64> { a.iter().zip(b).map(|(a, b)| a - b).collect() };
    let with = play("32 passes of 16 records, played", &passes(random, 32, 16, true));
    let without = play("the same offers without drains, 481 of 512 refused", &passes(random, 32, 16, false));
    line("drain", "the 32 drains alone, by difference", &less(&with.0, &without.0), &less(&with.1, &without.1));
    let with = play("16 power-ons, 31 records offered after each", &offers(random, 16, 31));
    let without = play("the 16 power-ons alone", &offers(random, 16, 0));
    line("offer", "the 496 offers alone, all taken, by difference", &less(&with.0, &without.0), &less(&with.1, &without.1));
}

/// A script on both players: each tests and reads its rows, plays them and tells 40 bytes of each.
fn play(said: &str, script: &[u8]) -> (Vec<f64>, Vec<f64>) {
    let erased = Image::erased(61_440).bytes;
    let mut board = Board::new();
    let (mut one, mut other) = (erased.clone(), erased.clone());
    let mut row = vec![0u8; script.len() / theirs::SCRIPT_ROW * theirs::PLAYED_ROW];
    let mut other_row = row.clone();
    let times = measure(
        "rig",
        said,
        || {
            other.copy_from_slice(&erased);
            black_box(theirs::rig(&mut board, 61_440, &mut other, black_box(script), &mut other_row));
        },
        || {
            one.copy_from_slice(&erased);
            black_box(ours::rig(61_440, &mut one, black_box(script), &mut row));
        },
    );
    assert!(one == other && row == other_row, "the two played differently");
    times
}

type Crc = unsafe extern "C" fn(c_ulong, *const u8, u32) -> c_ulong;
type Version = unsafe extern "C" fn() -> *const c_char;

/// zlib's crc32 and its version, from the system's library.
fn zlib() -> Option<(Crc, String)> {
    const NOW: c_int = 2;
    unsafe {
        let library = dlopen(c"libz.so.1".as_ptr(), NOW);
        if library.is_null() {
            return None;
        }
        let (crc, version) = (dlsym(library, c"crc32".as_ptr()), dlsym(library, c"zlibVersion".as_ptr()));
        if crc.is_null() || version.is_null() {
            return None;
        }
        let version = std::mem::transmute::<*mut c_void, Version>(version)();
        Some((std::mem::transmute::<*mut c_void, Crc>(crc), CStr::from_ptr(version).to_string_lossy().into_owned()))
    }
}

/// zlib's crc32 beside ours, on the same bytes.
fn limit(random: &mut Seeded) {
    let Some((crc, version)) = zlib() else {
        println!("zlib's crc32: not measured, since libz.so.1 is not at hand");
        return;
    };
    let mut bytes = vec![0u8; 65_536];
    random.fill(&mut bytes);
    println!("| call | input | zlib {version} | Stipeflute | times as fast |");
    println!("|---|---|---|---|---|");
    for (len, said) in [(252, "252 bytes"), (65_536, "65,536 bytes")] {
        let bytes = &bytes[..len];
        let mut row = [0u8; 4];
        let theirs = unsafe { crc(0, bytes.as_ptr(), len as u32) } as u32;
        ours::crc32(bytes, &mut row);
        assert_eq!(theirs, u32::from_le_bytes(row), "zlib's checksum is another");
        measure(
            "crc32",
            said,
            || {
                black_box(unsafe { crc(0, black_box(bytes).as_ptr(), len as u32) });
            },
            || {
                black_box(ours::crc32(black_box(bytes), &mut row));
            },
        );
    }
}

/// The processor time of the processes that have ended, user and system.
fn children_time() -> Duration {
    const CHILDREN: c_int = -1;
    let mut usage = [0i64; 18];
    assert_eq!(unsafe { getrusage(CHILDREN, &mut usage) }, 0);
    Duration::from_micros((usage[0] * 1_000_000 + usage[1] + usage[2] * 1_000_000 + usage[3]) as u64)
}

/// The census program on an image, by its processor time.
fn census_time(program: &str, image: &[u8]) -> f64 {
    let times = (0..15).map(|_| {
        let began = children_time();
        let mut child = Command::new(program).stdin(Stdio::piped()).stdout(Stdio::null()).spawn().expect("the census program starts");
        child.stdin.take().unwrap().write_all(image).unwrap();
        assert!(child.wait().unwrap().success());
        (children_time() - began).as_secs_f64()
    });
    median(times.collect())
}

/// The census program on a log of 176 flights, and on an image that it refuses, which is what starting it costs.
fn census(random: &mut Seeded) {
    let Ok(program) = std::env::var("STIPEFLUTE_CENSUS") else {
        println!("census: not measured, since its program is not at hand (./stipeflute census makes it)");
        return;
    };
    let mut image = Image::erased(61_440);
    for index in 0..image.pages() {
        let page = blackbox::encode_page(index + 1, index, &images::records(random, 5)).unwrap();
        image.page_mut(index).copy_from_slice(&page);
    }
    let (whole, refused) = (census_time(&program, &image.bytes), census_time(&program, &[0; 100]));
    println!("census: 61,440 bytes, {} flights: {}, of which {} start the program", image.pages(), shown(whole), shown(refused));
}

fn main() {
    let mut random = Seeded::new(1, "benches", 0);
    println!("| call | input | the Rust | Stipeflute | times as fast |");
    println!("|---|---|---|---|---|");
    codec(&mut random);
    let log = full_log(&mut random, 1000, 0);
    image_calls(&log, "a full image of 16 MiB, 1,000 flights of full pages");
    acknowledgement(&log, "the same, a flight of 65 pages");
    sync_calls(&log, "the same, none acknowledged");
    sync_calls(&full_log(&mut random, 1000, 1000), "the same, all acknowledged");
    programs(&mut random);
    drain(&mut random);
    println!();
    limit(&mut random);
    println!();
    census(&mut random);
}
