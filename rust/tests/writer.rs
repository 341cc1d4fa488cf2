//! A flight, a power cut in the midst of a page, and the next power-on, played on the proved code.

use stipeflute::{decode_page, play, FlightRecord, NextProgram, Operation, FLASH_PAGE_LEN};

fn record(number: u32) -> Operation {
    let none = FlightRecord::decode(&[0; 48]).unwrap();
    Operation::Offer(FlightRecord { timestamp_us: number, flags: 1, ..none })
}

fn drain(succeed: u32, next: NextProgram) -> Operation {
    Operation::Drain { limit: 16, record_while_disarmed: false, armed: true, succeed, next }
}

#[test]
fn at_most_five_are_lost() {
    let mut script = vec![Operation::PowerOn];
    script.extend((1..=10).map(record));
    let mut keep = [0; FLASH_PAGE_LEN];
    keep[128..].fill(0xff);
    // one page is written; the power goes while the second is programmed
    script.push(drain(1, NextProgram::Cut(keep)));
    script.push(Operation::PowerOn);
    let mut image = vec![0xff; 20480];
    let told = play(20480, &mut image, &script).unwrap();

    let cut = told[11];
    assert_eq!((cut.outcome, cut.pages_written, cut.queue_len), (1, 1, 0));
    let next = told[12];
    assert_eq!((next.next_page, next.next_flight, next.writable), (2, 2, true));
    let page = |index: usize| &image[12288 + 256 * index..][..FLASH_PAGE_LEN];
    assert_eq!(decode_page(page(0)).unwrap().record_count, 5);
    assert!(decode_page(page(1)).is_err());
    assert!(page(2).iter().all(|&byte| byte == 0xff));
}

#[test]
fn a_bad_capacity_is_refused() {
    let mut image = vec![0xff; 20480];
    let operation = Operation::Recover { next_page: 0, next_flight: 1, writable: true };
    assert!(play(20481, &mut image, &[operation]).is_err());
    assert!(image.iter().all(|&byte| byte == 0xff));
}
