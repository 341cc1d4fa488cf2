//! One call on both sides, compared byte by byte; the first difference ends the run with a recipe.

use crate::seeded::Seeded;
use crate::theirs::{PLAYED_ROW, SCRIPT_ROW};
use std::collections::BTreeMap;
use std::string::String;
use std::vec::Vec;

/// Refusal numbers run up to 17; 0 is an answer.
type Tally = [u64; 18];

/// What makes an input again.
#[derive(Clone)]
pub struct Recipe {
    pub seed: u64,
    pub kind: &'static str,
    pub index: u64,
}

pub struct Run {
    pub recipe: Recipe,
    /// How the input at hand was made.
    pub shape: String,
    tallies: BTreeMap<&'static str, Tally>,
    outcomes: BTreeMap<&'static str, u64>,
    one: Vec<u8>,
    other: Vec<u8>,
}

impl Run {
    pub fn new(seed: u64) -> Self {
        Self {
            recipe: Recipe { seed, kind: "", index: 0 },
            shape: String::new(),
            tallies: BTreeMap::new(),
            outcomes: BTreeMap::new(),
            one: Vec::new(),
            other: Vec::new(),
        }
    }

    /// The random numbers of the input that comes next.
    pub fn begin(&mut self, kind: &'static str, index: u64) -> Seeded {
        self.recipe = Recipe { seed: self.recipe.seed, kind, index };
        self.shape.clear();
        Seeded::new(self.recipe.seed, kind, index)
    }

    /// Calls both sides with a row of `len` bytes, filled alike before, and compares reply and row.
    pub fn row(
        &mut self,
        call: &'static str,
        len: usize,
        asked: impl Fn() -> String,
        ours: impl FnOnce(&mut [u8]) -> u32,
        theirs: impl FnOnce(&mut [u8]) -> u32,
    ) -> u32 {
        let fill = (len as u8).wrapping_mul(29) ^ self.recipe.index as u8;
        self.one.clear();
        self.one.resize(len, fill);
        self.other.clear();
        self.other.resize(len, fill);
        let (mut one, mut other) = (std::mem::take(&mut self.one), std::mem::take(&mut self.other));
        let replies = (ours(&mut one), theirs(&mut other));
        if replies.0 != replies.1 {
            self.differ(call, &asked(), &format!("reply {:#x}, the Rust's {:#x}", replies.0, replies.1));
        }
        self.bytes(call, &asked, "answer", &one, &other);
        self.count(call, replies.1);
        (self.one, self.other) = (one, other);
        replies.1
    }

    /// The row that the last call of `row` gave.
    pub fn last_row(&self) -> &[u8] {
        &self.other
    }

    /// Calls both sides on copies of lent bytes and compares replies and bytes.
    pub fn lent(
        &mut self,
        call: &'static str,
        lent: &[u8],
        asked: impl Fn() -> String,
        ours: impl FnOnce(&mut [u8]) -> u32,
        theirs: impl FnOnce(&mut [u8]) -> u32,
    ) -> Vec<u8> {
        let (mut one, mut other) = (lent.to_vec(), lent.to_vec());
        let replies = (ours(&mut one), theirs(&mut other));
        if replies.0 != replies.1 {
            self.differ(call, &asked(), &format!("reply {:#x}, the Rust's {:#x}", replies.0, replies.1));
        }
        self.bytes(call, &asked, "lent bytes", &one, &other);
        self.count(call, replies.1);
        other
    }

    pub fn bytes(&self, call: &str, asked: &dyn Fn() -> String, what: &str, one: &[u8], other: &[u8]) {
        if one == other {
            return;
        }
        let at = one.iter().zip(other).position(|(a, b)| a != b).unwrap_or(one.len().min(other.len()));
        let shown = |bytes: &[u8]| {
            let from = at.saturating_sub(4).min(bytes.len());
            hex(&bytes[from..bytes.len().min(at + 12)])
        };
        let what = format!("{what} differs at byte {at}: from {} on {}, the Rust's {}", at.saturating_sub(4), shown(one), shown(other));
        self.differ(call, &asked(), &what);
    }

    pub fn count(&mut self, call: &'static str, reply: u32) {
        self.tallies.entry(call).or_insert([0; 18])[(reply & 0xff).min(17) as usize] += 1;
    }

    pub fn differ(&self, call: &str, asked: &str, what: &str) -> ! {
        let Recipe { seed, kind, index } = self.recipe;
        println!("difference in {call}({asked})");
        println!("  {what}");
        println!("  input: {}", self.shape);
        println!("  recipe: oracle/run --seed {seed} --only {kind} --index {index}");
        std::process::exit(1);
    }

    /// Counts what the operations of a script came to, by the rows that were told of them.
    pub fn played(&mut self, script: &[u8]) {
        let told = std::mem::take(&mut self.other);
        for (row, told) in script.chunks(SCRIPT_ROW).zip(told.chunks(PLAYED_ROW)) {
            let report = |at: usize| told[at..at + 4] != [0; 4];
            let outcome = match (row[2], told[0]) {
                (0, 0) => "offer",
                (0, _) => "offer refused 16",
                (1, 1) => "drain cut",
                (1, _) if report(16) => "drain with a write fault",
                (1, _) if report(12) => "drain that drops records",
                (1, _) if report(8) => "drain that writes pages",
                (1, _) => "drain",
                (2, 0) => "write_pending, nothing",
                (2, 1) => "write_pending, written",
                (2, 2) => "write_pending, region full",
                (2, 3) => "write_pending, program failed",
                (2, _) => "write_pending cut",
                (3, _) if told[1] == 0 => "power-on, not writable",
                (3, _) => "power-on",
                (4, _) => "recover",
                (5, _) => "reset_after_erase",
                (_, 0) => "flush_write_back, not now",
                _ => "flush_write_back, flush",
            };
            *self.outcomes.entry(outcome).or_insert(0) += 1;
        }
        self.other = told;
    }

    /// How often each call was answered and refused, so that a reader sees what was compared.
    pub fn table(&self) {
        println!("calls compared, by refusal (0 is an answer):");
        for (call, tally) in &self.tallies {
            let parts: Vec<String> =
                tally.iter().enumerate().filter(|(_, times)| **times != 0).map(|(number, times)| format!("{number}: {times}")).collect();
            println!("  {call:24} {}", parts.join(", "));
        }
        for (outcome, times) in &self.outcomes {
            println!("  {outcome:32} {times}");
        }
    }
}

pub fn hex(bytes: &[u8]) -> String {
    bytes.iter().map(|byte| format!("{byte:02x}")).collect()
}
