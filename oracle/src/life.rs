//! The Rust's writer on an image: operations played one after another, and what can be seen after each.

use crate::blackbox::{FLASH_PAGE_LEN, FlightRecord};
use crate::layout::StorageLayout;
use crate::log_writer::{self, LogWriter, PageWrite};
use crate::nor_storage::NorStorage;
use crate::records::{RecordConsumer, RecordProducer, RecordQueue, scan_log};

/// What the program after those that succeed does.
#[derive(Clone, Copy, Debug, Eq, PartialEq)]
pub enum Next {
    Busy,
    Fault,
    Cut,
}

/// What a call's programs do: so many succeed, then this; the mask belongs to the one that doesn't.
#[derive(Clone, Debug)]
pub struct Programs {
    pub succeed: u32,
    pub next: Next,
    pub keep: [u8; FLASH_PAGE_LEN],
}

#[derive(Clone, Debug)]
pub enum Op {
    /// A fresh writer and an empty queue, set by one scan.
    PowerOn,
    Offer(FlightRecord),
    Drain {
        armed: bool,
        record_while_disarmed: bool,
        programs: Programs,
    },
    WritePending {
        programs: Programs,
    },
    Recover {
        next_page: u32,
        next_flight: u32,
        writable: bool,
    },
    ResetAfterErase,
    Flush {
        write_back_pending: bool,
        now_ms: u64,
    },
}

/// How an operation ended, as numbers.
#[derive(Clone, Copy, Debug, Eq, PartialEq)]
pub enum Outcome {
    Done,
    /// A scan, or an offer to a full queue, was refused: the number and the fault byte.
    Refused(u8, u8),
    Drained {
        cut: bool,
        pages_written: u32,
        records_dropped: u32,
        write_faults: u32,
    },
    Wrote(PageWritten),
    Flushed(bool),
}

#[derive(Clone, Copy, Debug, Eq, PartialEq)]
pub enum PageWritten {
    Nothing,
    Written,
    RegionFull,
    ProgramFailed,
    PowerCut,
}

/// What can be seen of writer and queue.
#[derive(Clone, Copy, Debug, Eq, PartialEq)]
pub struct State {
    pub next_page: u32,
    pub next_flight: u32,
    pub writable: bool,
    pub recording: bool,
    pub unfinished: Option<u32>,
    pub write_back_since_ms: Option<u64>,
    pub queue_len: u32,
}

/// The store that a writer call programs.
struct Store<'a> {
    image: &'a mut [u8],
    programs: &'a Programs,
    left: u32,
    asks_busy: bool,
    power_gone: bool,
}

impl<'a> Store<'a> {
    fn new(image: &'a mut [u8], programs: &'a Programs, asks_busy: bool) -> Self {
        Self { image, programs, left: programs.succeed, asks_busy, power_gone: false }
    }
}

/// Programming a byte gives old AND (target OR keep).
pub fn program(image: &mut [u8], address: u32, target: &[u8], keep: &[u8]) {
    let at = address as usize;
    for (i, byte) in target.iter().enumerate() {
        image[at + i] &= byte | keep.get(i).copied().unwrap_or(0);
    }
}

impl NorStorage for Store<'_> {
    type Error = ();

    fn read(&mut self, _address: u32, _output: &mut [u8]) -> Result<(), ()> {
        unreachable!("the writer reads nothing")
    }

    fn page_program(&mut self, address: u32, bytes: &[u8]) -> Result<(), ()> {
        assert!(!self.power_gone, "a program after the power was cut");
        let well = self.left > 0 || (self.programs.next == Next::Busy && !self.asks_busy);
        if well {
            program(self.image, address, bytes, &[]);
            self.left = self.left.saturating_sub(1);
            return Ok(());
        }
        assert!(self.programs.next != Next::Busy, "a busy store is not programmed by drain");
        program(self.image, address, bytes, &self.programs.keep);
        self.power_gone = self.programs.next == Next::Cut;
        Err(())
    }

    fn erase_sector_4k(&mut self, _address: u32) -> Result<(), ()> {
        unreachable!("the writer erases nothing")
    }

    fn busy(&mut self) -> Result<bool, ()> {
        Ok(self.left == 0 && self.programs.next == Next::Busy)
    }

    fn write_back_pending(&self) -> bool {
        unreachable!("asked by flush_write_back alone")
    }

    fn flush(&mut self) -> Result<(), ()> {
        unreachable!("asked by flush_write_back alone")
    }
}

/// A store that holds pages in RAM, or none.
struct Buffer {
    pending: bool,
    flushed: bool,
}

impl NorStorage for Buffer {
    type Error = ();

    fn read(&mut self, _address: u32, _output: &mut [u8]) -> Result<(), ()> {
        unreachable!()
    }

    fn page_program(&mut self, _address: u32, _bytes: &[u8]) -> Result<(), ()> {
        unreachable!()
    }

    fn erase_sector_4k(&mut self, _address: u32) -> Result<(), ()> {
        unreachable!()
    }

    fn busy(&mut self) -> Result<bool, ()> {
        unreachable!()
    }

    fn write_back_pending(&self) -> bool {
        self.pending
    }

    fn flush(&mut self) -> Result<(), ()> {
        self.flushed = true;
        Ok(())
    }
}

/// The Rust's writer with its queue.
pub struct Board {
    pub writer: LogWriter,
    producer: RecordProducer,
    consumer: RecordConsumer,
}

impl Board {
    /// The queue lives as long as the program, as on a board.
    pub fn new() -> Self {
        let queue: &'static mut RecordQueue = Box::leak(Box::new(RecordQueue::new()));
        let (producer, consumer) = queue.split();
        Self { writer: LogWriter::new(), producer, consumer }
    }

    /// What a cut leaves of writer and queue: nothing.
    pub fn power_off(&mut self) {
        self.writer = LogWriter::new();
        while self.consumer.dequeue().is_some() {}
    }

    pub fn state(&self) -> State {
        State {
            next_page: self.writer.next_page(),
            next_flight: self.writer.next_flight(),
            writable: self.writer.writable(),
            recording: self.writer.recording(),
            unfinished: self.writer.unfinished_flight(),
            write_back_since_ms: log_writer::reached::write_back_since_ms(&self.writer),
            queue_len: self.consumer.len() as u32,
        }
    }

    pub fn offer(&mut self, record: FlightRecord) -> bool {
        self.producer.enqueue(record).is_ok()
    }

    pub fn drain(
        &mut self,
        layout: StorageLayout,
        image: &mut [u8],
        armed: bool,
        record_while_disarmed: bool,
        programs: &Programs,
    ) -> Outcome {
        let mut store = Store::new(image, programs, true);
        let report = self.writer.drain(&mut store, layout, &mut self.consumer, armed, record_while_disarmed);
        let cut = store.power_gone;
        if cut {
            self.power_off();
        }
        Outcome::Drained {
            cut,
            pages_written: report.pages_written,
            records_dropped: report.records_dropped,
            write_faults: report.write_faults,
        }
    }

    fn write_pending(&mut self, layout: StorageLayout, image: &mut [u8], programs: &Programs) -> Outcome {
        let mut store = Store::new(image, programs, false);
        let written = self.writer.write_pending(&mut store, layout);
        if store.power_gone {
            self.power_off();
            return Outcome::Wrote(PageWritten::PowerCut);
        }
        Outcome::Wrote(match written {
            PageWrite::Nothing => PageWritten::Nothing,
            PageWrite::Written => PageWritten::Written,
            PageWrite::RegionFull => PageWritten::RegionFull,
            PageWrite::ProgramFailed => PageWritten::ProgramFailed,
        })
    }

    fn power_on(&mut self, layout: StorageLayout, image: &[u8]) -> Outcome {
        self.power_off();
        let scanned = scan_log(layout, |address, output| {
            let at = address as usize;
            output.copy_from_slice(&image[at..at + output.len()]);
            Ok::<(), ()>(())
        });
        let (next_page, next_flight, writable) = scanned.expect("a log whose reads have no faults");
        self.writer.recover(next_page, next_flight, writable);
        Outcome::Done
    }

    pub fn play(&mut self, layout: StorageLayout, image: &mut [u8], op: &Op) -> Outcome {
        match op {
            Op::PowerOn => self.power_on(layout, image),
            Op::Offer(record) => {
                if self.offer(*record) {
                    Outcome::Done
                } else {
                    Outcome::Refused(16, 0)
                }
            }
            Op::Drain { armed, record_while_disarmed, programs } => self.drain(layout, image, *armed, *record_while_disarmed, programs),
            Op::WritePending { programs } => self.write_pending(layout, image, programs),
            Op::Recover { next_page, next_flight, writable } => {
                self.writer.recover(*next_page, *next_flight, *writable);
                Outcome::Done
            }
            Op::ResetAfterErase => {
                self.writer.reset_after_erase();
                Outcome::Done
            }
            Op::Flush { write_back_pending, now_ms } => {
                let mut buffer = Buffer { pending: *write_back_pending, flushed: false };
                self.writer.flush_write_back(&mut buffer, *now_ms).unwrap();
                Outcome::Flushed(buffer.flushed)
            }
        }
    }
}

impl Default for Board {
    fn default() -> Self {
        Self::new()
    }
}
