//! The embedded sample is what its recipe makes: three power-ons, played by the proved writer on an erased flash of 32,768 bytes.

mod common;

use common::{acknowledge, root};
use stipeflute::{FlightRecord, NextProgram, Operation, decode_page, play};

const CAPACITY: u32 = 32_768;

/// Record n: a millisecond apart, rates that swing, and the armed bit.
fn record(n: u32) -> FlightRecord {
    let swing = |period: u32, high: u32| {
        let at = n % period;
        (at.min(period - at) * 4 * high / period) as i16 - high as i16
    };
    let command = [swing(40, 300), swing(56, 200), swing(96, 100)];
    let gyro = [swing(40, 290), swing(56, 190), swing(96, 95)];
    FlightRecord {
        timestamp_us: 2_000_000 + 1_000 * n,
        control_sequence: n,
        imu_sequence: 8 * n,
        flags: 1,
        raw_gyro_dps10: gyro.map(|rate| rate + (n % 7) as i16),
        filtered_gyro_dps10: gyro,
        command_dps10: command,
        pid: [0, 1, 2].map(|axis| command[axis] - gyro[axis]),
        throttle: 1_000 + 2 * (n % 100) as u16,
        motors: [0, 1, 2, 3].map(|motor| 1_100 + (n % 100) as u16 + 3 * motor),
    }
}

/// A script, and how many records it has offered.
struct Script {
    rows: Vec<Operation>,
    records: u32,
}

impl Script {
    fn drain(&mut self, armed: bool, succeed: u32, next: NextProgram) {
        self.rows.push(Operation::Drain { limit: 16, record_while_disarmed: false, armed, succeed, next });
    }

    fn offer(&mut self, count: u32) {
        for _ in 0..count {
            self.records += 1;
            self.rows.push(Operation::Offer(record(self.records)));
        }
    }

    /// So many armed records, fifteen a pass.
    fn fly(&mut self, count: u32) {
        for first in (0..count).step_by(15) {
            self.offer(15.min(count - first));
            self.drain(true, 9, NextProgram::Busy);
        }
    }

    /// The craft is disarmed, and what is left of the flight is written.
    fn land(&mut self) {
        self.drain(false, 9, NextProgram::Busy);
        self.rows.push(Operation::WritePending { succeed: 1, next: NextProgram::Busy });
        self.drain(false, 9, NextProgram::Busy);
        self.rows.push(Operation::WritePending { succeed: 1, next: NextProgram::Busy });
    }
}

/// The second half of a page stays unprogrammed.
fn half() -> [u8; 256] {
    std::array::from_fn(|at| if at < 128 { 0 } else { 0xff })
}

fn three_power_ons() -> Vec<Operation> {
    let mut script = Script { rows: vec![Operation::PowerOn], records: 0 };
    script.fly(38);
    script.land();
    script.fly(61);
    script.land();
    // flight 3: a program fails and is tried again, then the power goes in the midst of a page
    script.rows.push(Operation::PowerOn);
    script.fly(45);
    script.offer(10);
    script.drain(true, 0, NextProgram::Fault(half()));
    script.drain(true, 9, NextProgram::Busy);
    script.offer(12);
    script.drain(true, 1, NextProgram::Cut(half()));
    script.rows.push(Operation::PowerOn);
    script.fly(22);
    script.land();
    script.fly(9);
    script.land();
    script.rows
}

#[test]
fn the_sample_is_what_its_recipe_makes() {
    let mut image = vec![0xff; CAPACITY as usize];
    play(CAPACITY, &mut image, &three_power_ons()).unwrap();
    acknowledge(&mut image, 1);
    acknowledge(&mut image, 2);
    let kept = std::fs::read(root().join("host/samples/brown_out")).unwrap();
    if image != kept {
        panic!("host/samples/brown_out is not what the recipe makes, which is now in {}", common::file("brown_out", &image));
    }
}

#[test]
fn a_program_fails_and_its_page_is_whole_in_the_end() {
    let rows = three_power_ons();
    let fails = |row: &Operation| matches!(row, Operation::Drain { next: NextProgram::Fault(_), .. });
    let failed = rows.iter().position(fails).unwrap();
    let mut image = vec![0xff; CAPACITY as usize];
    let told = play(CAPACITY, &mut image, &rows[..=failed]).unwrap();
    let page = 12_288 + 256 * told[failed].next_page as usize..;
    let failed = &image[page.clone()][..256];
    assert!(decode_page(failed).is_err() && failed.iter().any(|&byte| byte != 0xff));
    let kept = std::fs::read(root().join("host/samples/brown_out")).unwrap();
    assert_eq!(decode_page(&kept[page][..256]).unwrap().flight_id, 3);
}
