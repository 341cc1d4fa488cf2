//! Dumps that are made by the proved calls, and the program run on them.
#![allow(dead_code)]

pub mod json;
pub mod xml;

use std::io::Write;
use std::path::{Path, PathBuf};
use std::process::{Command, Stdio};

use stipeflute::{Flash, FlightRecord, MarkStep, encode_page, next_mark_step, start_mark_step};

pub const SAMPLES: [&str; 8] = ["example", "fresh", "full", "foreign", "falling", "hole", "short", "empty"];

/// The repository.
pub fn root() -> PathBuf {
    Path::new(env!("CARGO_MANIFEST_DIR")).join("..")
}

pub fn sample(name: &str) -> String {
    let path = root().join("crates/run_samples/data").join(name);
    path.to_str().unwrap().to_string()
}

pub fn record(stamp: u32) -> FlightRecord {
    FlightRecord { timestamp_us: stamp, flags: 1, pid: [-1, i16::MIN, i16::MAX], motors: [1, 2, 3, 65_535], ..Default::default() }
}

/// A page of so many records, stamped by its flight, sequence and place.
pub fn page(flight: u32, sequence: u32, count: u32) -> [u8; 256] {
    let records: Vec<_> = (0..count).map(|at| record(flight.wrapping_mul(1_000).wrapping_add(sequence * 5 + at))).collect();
    encode_page(flight, sequence, &records).unwrap()
}

/// An erased flash but for these pages at the log's front.
pub fn dump(capacity: usize, pages: &[[u8; 256]]) -> Vec<u8> {
    let mut image = vec![0xff; capacity];
    for (at, page) in pages.iter().enumerate() {
        image[12_288 + 256 * at..][..256].copy_from_slice(page);
    }
    image
}

/// Clears ten bytes of a log page, which then does not decode.
pub fn tear(image: &mut [u8], index: usize) {
    image[12_288 + 256 * index + 100..][..10].fill(0);
}

pub fn acknowledge(image: &mut [u8], flight: u32) {
    let (capacity, faults) = (image.len() as u32, vec![0; image.len() / 256]);
    loop {
        let step = next_mark_step(Flash { capacity_bytes: capacity, image, faults: &faults }, flight).unwrap();
        if step == MarkStep::Done {
            return;
        }
        start_mark_step(capacity, image, step, &[0; 256], 0).unwrap();
    }
}

/// A log of so many flights that fills so many pages, each flight as long as the others but for the last.
pub fn flights(capacity: usize, flights: u32, used: u32) -> Vec<u8> {
    let each = used / flights;
    let place = |index: u32| {
        let flight = (index / each).min(flights - 1);
        (flight + 1, index - flight * each)
    };
    let pages: Vec<_> = (0..used).map(place).map(|(flight, sequence)| page(flight, sequence, 5)).collect();
    dump(capacity, &pages)
}

/// A file of its own for a test.
pub fn file(name: &str, bytes: &[u8]) -> String {
    let path = Path::new(env!("CARGO_TARGET_TMPDIR")).join(name);
    std::fs::write(&path, bytes).unwrap();
    path.to_str().unwrap().to_string()
}

pub struct Answer {
    pub status: i32,
    pub out: String,
    pub err: String,
}

/// The program.
pub fn program() -> Command {
    Command::new(env!("CARGO_BIN_EXE_stipeflute"))
}

pub fn ask(words: &[&str]) -> Answer {
    ask_with(words, &[])
}

pub fn ask_with(words: &[&str], input: &[u8]) -> Answer {
    let mut child =
        program().args(words).stdin(Stdio::piped()).stdout(Stdio::piped()).stderr(Stdio::piped()).spawn().expect("the program starts");
    let mut stdin = child.stdin.take().unwrap();
    let input = input.to_vec();
    // A program that stops reading early closes its end, which is no fault of the test.
    let writer = std::thread::spawn(move || drop(stdin.write_all(&input)));
    let output = child.wait_with_output().unwrap();
    writer.join().unwrap();
    let text = |bytes| String::from_utf8(bytes).unwrap();
    Answer { status: output.status.code().expect("no signal ended it"), out: text(output.stdout), err: text(output.stderr) }
}

/// An answer with status 0 and nothing on standard error.
pub fn answered(words: &[&str]) -> String {
    let answer = ask(words);
    assert_eq!((answer.status, answer.err.as_str()), (0, ""), "{words:?}");
    answer.out
}

/// A refusal: status 1, and one line that begins with the number and the name.
pub fn refused(words: &[&str], number_and_name: &str) -> Answer {
    let answer = ask(words);
    let begins = format!("stipeflute: refused {number_and_name}: ");
    assert_eq!(answer.status, 1, "{words:?}: {}", answer.err);
    assert!(answer.err.starts_with(&begins) && answer.err.lines().count() == 1, "{words:?}: {}", answer.err);
    answer
}

/// Trouble: status 2, one line, and nothing on standard output.
pub fn troubled(words: &[&str]) -> String {
    let answer = ask(words);
    assert_eq!((answer.status, answer.out.as_str()), (2, ""), "{words:?}: {}", answer.err);
    assert!(answer.err.starts_with("stipeflute: ") && answer.err.lines().count() == 1, "{words:?}: {}", answer.err);
    answer.err
}
