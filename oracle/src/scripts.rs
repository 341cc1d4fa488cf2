//! Operations for a writer: whole lives from an erased log, and scripts that are no lives.

use crate::blackbox::{FLASH_PAGE_LEN, FlightRecord};
use crate::images;
use crate::life::{Next, Op, Programs};
use crate::seeded::Seeded;
use std::vec::Vec;

fn mask(random: &mut Seeded) -> [u8; FLASH_PAGE_LEN] {
    let mut keep = [0u8; FLASH_PAGE_LEN];
    match random.below(6) {
        0 => {}
        1 => keep.fill(0xff),
        2 => keep[random.below(256) as usize] = 1 << random.below(8),
        3 => {
            let from = random.below(256) as usize;
            keep[from..].fill(0xff);
        }
        _ => random.fill(&mut keep),
    }
    keep
}

/// How often the next program is no success: never, or one call in so many.
fn programs(random: &mut Seeded, trouble: u64) -> Programs {
    let (succeed, next) = if trouble == 0 || !random.one_in(trouble) {
        (random.pick(&[16, 99, u32::MAX]), Next::Fault)
    } else {
        (random.pick(&[0, 0, 0, 1, 2, 3]), random.pick(&[Next::Busy, Next::Fault, Next::Cut]))
    };
    Programs { succeed, next, keep: mask(random) }
}

fn offered(random: &mut Seeded, armed: bool) -> FlightRecord {
    let mut record = images::record(random);
    record.flags = record.flags & !1 | u16::from(armed);
    record
}

/// How a script is made: what trouble its programs have, and whether it is a life.
pub struct Manner {
    pub trouble: u64,
    pub bench: bool,
    pub is_life: bool,
}

/// A life begins on an erased log with a power-on and knows power-ons, offers, drains and write_pendings alone; other scripts also
/// recover a dirty writer, reset it and flush, and need not begin with a power-on.
pub fn script(random: &mut Seeded, is_life: bool, pages: u32) -> Vec<Op> {
    let manner = Manner { trouble: random.pick(&[0, 12, 4, 2]), bench: random.one_in(4), is_life };
    let mut ops = Vec::new();
    if is_life || !random.one_in(8) {
        ops.push(Op::PowerOn);
    }
    let count = if random.one_in(4) { random.from_to(40, 160) } else { random.from_to(4, 40) };
    let mut now_ms = random.pick(&[0, 1, 1_000_000, u64::MAX - 50]);
    for _ in 0..count {
        step(random, &manner, pages, &mut now_ms, &mut ops);
    }
    ops
}

fn step(random: &mut Seeded, manner: &Manner, pages: u32, now_ms: &mut u64, ops: &mut Vec<Op>) {
    let choice = random.below(if manner.is_life { 20 } else { 26 });
    match choice {
        0 => ops.push(Op::PowerOn),
        1..=9 => {
            let armed = !random.one_in(4);
            let many = random.pick(&[1, 2, 3, 4, 5, 6, 10, 16, 20, 33]);
            for _ in 0..many {
                let flag = armed != random.one_in(24);
                ops.push(Op::Offer(offered(random, flag)));
            }
            ops.push(drain(random, manner));
        }
        10..=15 => ops.push(drain(random, manner)),
        16 => ops.push(Op::WritePending { programs: programs(random, manner.trouble) }),
        17..=19 => {
            // A page that a drain leaves waiting, and a write_pending that may fail too.
            for _ in 0..random.from_to(5, 8) {
                ops.push(Op::Offer(offered(random, true)));
            }
            let held_up = Programs { succeed: 0, next: random.pick(&[Next::Busy, Next::Fault]), keep: mask(random) };
            ops.push(Op::Drain { armed: true, record_while_disarmed: manner.bench, programs: held_up });
            let trouble = if manner.trouble == 0 { 0 } else { 2 };
            ops.push(Op::WritePending { programs: programs(random, trouble) });
        }
        20 => ops.push(Op::ResetAfterErase),
        21 => ops.push(Op::Recover {
            next_page: if random.flag() { random.below(u64::from(pages) + 2) as u32 } else { random.number() },
            next_flight: random.number(),
            writable: !random.one_in(4),
        }),
        _ => {
            *now_ms = match random.below(6) {
                0 => now_ms.saturating_sub(random.below(300)),
                1 => now_ms.wrapping_add(100),
                2 => random.next(),
                _ => now_ms.wrapping_add(random.below(130)),
            };
            ops.push(Op::Flush { write_back_pending: !random.one_in(4), now_ms: *now_ms });
        }
    }
}

fn drain(random: &mut Seeded, manner: &Manner) -> Op {
    Op::Drain { armed: random.flag(), record_while_disarmed: manner.bench && !random.one_in(8), programs: programs(random, manner.trouble) }
}
