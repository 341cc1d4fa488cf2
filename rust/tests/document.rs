//! The examples of the scope document, run through the safe calls.

use stipeflute::*;

const CAPACITY: u32 = 20_480;

fn refused(refusal: Refusal) -> Refused {
    Refused { refusal, fault: 0 }
}

fn record(stamp: u32) -> FlightRecord {
    FlightRecord { timestamp_us: stamp, raw_gyro_dps10: [-1, i16::MIN, i16::MAX], motors: [1, 2, 3, 4], ..Default::default() }
}

fn page(flight: u32, sequence: u32) -> [u8; 256] {
    encode_page(flight, sequence, &[record(1), record(2), record(3), record(4), record(5)]).unwrap()
}

/// An image of 20,480 bytes, all 0xff but for these log pages.
fn image(pages: &[[u8; 256]]) -> Vec<u8> {
    let mut image = vec![0xff; CAPACITY as usize];
    for (i, page) in pages.iter().enumerate() {
        image[12_288 + 256 * i..][..256].copy_from_slice(page);
    }
    image
}

fn flash(image: &[u8]) -> Flash<'_> {
    Flash { capacity_bytes: CAPACITY, image, faults: &[0; 80] }
}

#[test]
fn layouts() {
    assert_eq!(StorageLayout::new(16_384), Err(refused(Refusal::InvalidLayout)));
    assert_eq!(StorageLayout::new(16_781_312), Err(refused(Refusal::InvalidLayout)));
    assert_eq!(StorageLayout::new(20_481), Err(refused(Refusal::InvalidLayout)));
    assert_eq!(StorageLayout::new(16_777_216).unwrap().log_page_count, 65_472);
    let layout = StorageLayout::new(CAPACITY).unwrap();
    assert_eq!(
        layout,
        StorageLayout { capacity_bytes: CAPACITY, config_slot_addresses: [0, 4096], log_start_address: 12_288, log_page_count: 16 }
    );
    assert_eq!(layout.sync_ledger_address(), Ok(16_384));
    assert_eq!(layout.log_page_address(15), Ok(Some(16_128)));
    assert_eq!(layout.log_page_address(16), Ok(None));
    assert_eq!(layout.log_sector_count(), Ok(2));
    let steps: Vec<_> = (0..3).map(|k| layout.log_erase_sector_address(k)).collect();
    assert_eq!(steps, [Ok(Some(16_384)), Ok(Some(12_288)), Ok(None)]);
}

#[test]
fn bits_of_the_ledger() {
    assert_eq!(bit_location(CAPACITY, 1), Ok((16_392, 1)));
    assert_eq!(bit_location(CAPACITY, 9), Ok((16_393, 1)));
    assert_eq!(bit_location(CAPACITY, 32_704), Ok((20_479, 128)));
    assert_eq!(bit_location(CAPACITY, 0), Err(refused(Refusal::OutOfRange)));
    assert_eq!(bit_location(CAPACITY, 32_705), Err(refused(Refusal::OutOfRange)));
    assert_eq!(bit_location(0, 0), Err(refused(Refusal::InvalidLayout)));
}

#[test]
fn checksum_records_and_pages() {
    assert_eq!(crc32(b""), 0);
    assert_eq!(crc32(b"123456789"), 0xCBF4_3926);
    let bytes = record(7).encode();
    assert_eq!(bytes[14..20], [0xff, 0xff, 0x00, 0x80, 0xff, 0x7f]);
    assert_eq!(FlightRecord::decode(&bytes), Ok(record(7)));
    assert_eq!(FlightRecord::decode(&bytes[1..]), Err(refused(Refusal::BadLength)));
    let five = page(3, 9);
    assert_eq!(decode_page(&five), Ok(PageMetadata { flight_id: 3, page_sequence: 9, record_count: 5 }));
    assert_eq!(record_from_page(&five, 4), Ok(record(5)));
    assert_eq!(record_from_page(&five, 5), Err(refused(Refusal::InvalidRecordCount)));
    assert_eq!(encode_page(3, 9, &[record(1); 6]), Err(refused(Refusal::InvalidRecordCount)));
    assert_eq!(decode_page(&encode_page(3, 9, &[]).unwrap()).unwrap().record_count, 0);
}

#[test]
fn a_page_is_refused_in_order() {
    let five = page(3, 9);
    let with = |changes: &[(usize, u8)]| {
        let mut page = five;
        for &(at, byte) in changes {
            page[at] = byte;
        }
        decode_page(&page)
    };
    assert_eq!(with(&[(0, !five[0])]), Err(refused(Refusal::CrcMismatch)));
    assert_eq!(with(&[(0, !five[0]), (243, 6)]), Err(refused(Refusal::InvalidRecordCount)));
    assert_eq!(with(&[(243, 6), (242, 2)]), Err(refused(Refusal::UnsupportedVersion)));
    assert_eq!(with(&[(242, 2), (240, 0)]), Err(refused(Refusal::InvalidMagic)));
    assert_eq!(decode_page(&five[..255]), Err(refused(Refusal::BadLength)));
}

#[test]
fn scratch_page() {
    let page = scratch_test_page();
    assert_eq!((&page[..8], page[8], page[128], page[255]), (&b"FWTEST01"[..], 0xb5, 0xa4, 0x5a));
}

#[test]
fn explains() {
    let (torn, blank) = ([0; 256], [0xff; 256]);
    let mut newer = page(1, 0);
    newer[242] = 2;
    let last = |earlier_page, earlier, later| Reason::LastTorn { earlier_page, earlier, later_page: earlier_page + 1, later };
    let magic = Refusal::InvalidMagic;
    let mut begins_blank = vec![page(1, 0); 9];
    begins_blank[0] = blank;
    let cases = [
        (vec![], Reason::Nothing),
        (vec![page(1, 0), torn], Reason::Nothing),
        (vec![page(1, 0), torn, newer], last(1, magic, Refusal::UnsupportedVersion)),
        (vec![page(1, 0), newer, torn], last(1, Refusal::UnsupportedVersion, magic)),
        (vec![newer, torn, torn], Reason::FirstTorn(Refusal::UnsupportedVersion)),
        (vec![torn], Reason::FirstTorn(magic)),
        (begins_blank, Reason::FirstTorn(magic)),
        (vec![page(2, 0); 16], Reason::Full),
        (vec![torn; 16], Reason::FirstTorn(magic)),
    ];
    for (pages, reason) in cases {
        assert_eq!(explain(flash(&image(&pages))), Ok(reason));
    }
    // A fault in a page that is not read changes nothing; in one that is, it refuses.
    let log = image(&[page(1, 0), page(1, 1), torn, torn]);
    let at = |index: usize| {
        let mut faults = [0; 80];
        faults[48 + index] = 9;
        explain(Flash { faults: &faults, ..flash(&log) })
    };
    assert_eq!(at(6), Ok(last(2, magic, magic)));
    for read in [8, 4, 2, 3, 0] {
        assert_eq!(at(read), Err(Refused { refusal: Refusal::Device, fault: 9 }));
    }
    let capacity = Flash { capacity_bytes: 20_481, image: &[], ..flash(&log) };
    assert_eq!(explain(capacity), Err(refused(Refusal::InvalidLayout)));
    assert_eq!(explain(Flash { image: &log[1..], ..flash(&log) }), Err(refused(Refusal::BadLength)));
}

#[test]
fn scans() {
    let torn = [0; 256];
    let cases = [
        (vec![], (0, 1, true)),
        (vec![page(1, 0), page(7, 0)], (2, 8, true)),
        (vec![page(u32::MAX, 0)], (1, 1, true)),
        (vec![page(1, 0), torn, torn], (0, 1, false)),
        (vec![torn, page(1, 0)], (0, 1, false)),
        (vec![page(1, 0), torn], (2, 2, true)),
        (vec![page(2, 0); 16], (16, 3, false)),
    ];
    for (pages, (next_page, next_flight, writable)) in cases {
        assert_eq!(scan_log(flash(&image(&pages))), Ok(Scan { next_page, next_flight, writable }));
    }
    let blank = image(&[]);
    let mut faults = [0; 80];
    faults[48 + 8] = 77;
    let faulty = Flash { faults: &faults, ..flash(&blank) };
    assert_eq!(scan_log(faulty), Err(Refused { refusal: Refusal::Device, fault: 77 }));
    assert_eq!(scan_log(Flash { image: &blank[1..], ..faulty }), Err(refused(Refusal::BadLength)));
    assert_eq!(scan_log(Flash { faults: &faults[1..], ..faulty }), Err(refused(Refusal::BadLength)));
    assert_eq!(scan_log(Flash { capacity_bytes: 20_481, image: &[], ..faulty }), Err(refused(Refusal::InvalidLayout)));
}

#[test]
fn flights_are_found_and_walked() {
    let image = image(&[page(1, 0), page(1, 1), [0; 256], page(2, 0)]);
    let one = StoredFlight { flight_id: 1, start_page: 0, pages: 3 };
    let two = StoredFlight { flight_id: 2, start_page: 3, pages: 1 };
    assert_eq!(page_flight_id(flash(&image), 2), Ok(Some(1)));
    assert_eq!(page_flight_id(flash(&image), 5), Ok(None));
    assert_eq!(page_flight_id(flash(&image), 16), Err(refused(Refusal::Corrupt)));
    assert_eq!(find_flight(flash(&image), 4, 1), Ok(Some(one)));
    assert_eq!(find_flight(flash(&image), 4, 2), Ok(Some(two)));
    assert_eq!(find_flight(flash(&image), 4, 3), Ok(None));
    assert_eq!(find_flight(flash(&image), 40, 3), Err(refused(Refusal::Corrupt)));
    assert_eq!(older_flight(flash(&image), 4), Ok(Some(two)));
    assert_eq!(older_flight(flash(&image), 3), Ok(Some(one)));
    assert_eq!(older_flight(flash(&image), 0), Ok(None));
}

#[test]
fn acknowledgements() {
    let image = image(&[page(1, 0), page(1, 1), page(2, 0)]);
    let ack = |recording, flight, pages| check_ack(flash(&image), 3, recording, flight, pages);
    assert_eq!(ack(None, 1, 2), Ok(()));
    assert_eq!(ack(None, 1, 1), Err(refused(Refusal::LengthChanged)));
    assert_eq!(ack(None, 1, 3), Err(refused(Refusal::LengthChanged)));
    assert_eq!(ack(None, 3, 1), Err(refused(Refusal::NoSuchFlight)));
    assert_eq!(ack(None, 0, 1), Err(refused(Refusal::NoSuchFlight)));
    assert_eq!(ack(Some(0), 0, 1), Err(refused(Refusal::Recording)));
    assert_eq!(ack(Some(40_000), 40_000, 1), Err(refused(Refusal::Recording)));
    assert_eq!(ack(Some(2), 40_000, 1), Err(refused(Refusal::LedgerFull)));
}

#[test]
fn three_operations_mark_a_flight() {
    let mut image = image(&[page(1, 0), page(2, 0)]);
    image[16_384] = 0;
    assert_eq!(read_header(flash(&image)), Ok(LedgerHeader::Foreign));
    let keep = [0; 256];
    let expected = [
        MarkStep::EraseLedger { address: 16_384 },
        MarkStep::ProgramHeader { address: 16_384 },
        MarkStep::ProgramBit { address: 16_392, value: 0xfd },
    ];
    for step in expected {
        assert_eq!(is_synced(flash(&image), 2), Ok(false));
        assert_eq!(all_synced(flash(&image), 2, None), Ok(false));
        assert_eq!(next_mark_step(flash(&image), 2), Ok(step));
        assert_eq!(start_mark_step(CAPACITY, &mut image, step, &keep, 0), Ok(()));
    }
    assert_eq!(next_mark_step(flash(&image), 2), Ok(MarkStep::Done));
    assert_eq!(start_mark_step(CAPACITY, &mut image, MarkStep::Done, &keep, 9), Ok(()));
    assert_eq!(read_header(flash(&image)), Ok(LedgerHeader::Valid));
    assert_eq!((is_synced(flash(&image), 2), is_synced(flash(&image), 1)), (Ok(true), Ok(false)));
    let list = unsynced_flights(flash(&image), 2, None).unwrap();
    assert_eq!((list.flights(), list.more), (&[StoredFlight { flight_id: 1, start_page: 0, pages: 1 }][..], false));
    assert_eq!(unsynced_flights(flash(&image), 2, Some(1)).unwrap().flights(), []);
    image[16_392] = 0xfc;
    assert_eq!(all_synced(flash(&image), 2, None), Ok(true));
    assert_eq!(all_synced(flash(&image), 2, Some(9)), Ok(false));
}

#[test]
fn more_than_eight_are_listed_as_eight_and_more() {
    let pages: Vec<_> = (1..=9).map(|flight| page(flight, 0)).collect();
    let list = unsynced_flights(flash(&image(&pages)), 9, None).unwrap();
    let ids: Vec<_> = list.flights().iter().map(|flight| flight.flight_id).collect();
    assert_eq!((ids, list.more), ((2..=9).rev().collect(), true));
    assert!(unsynced_lines(&[StoredFlight::default(); 9], false).is_err());
}

#[test]
fn lines_and_texts() {
    let flights = [StoredFlight { flight_id: 12, start_page: 0, pages: 3 }, StoredFlight { flight_id: u32::MAX, ..Default::default() }];
    let lines = unsynced_lines(&flights, true).unwrap();
    let expected = "OK unsynced n=2 more=1\r\nOK flight=12 start=0 pages=3\r\nOK flight=4294967295 start=0 pages=0\r\n";
    assert_eq!(lines.as_bytes(), expected.as_bytes());
    assert_eq!(unsynced_lines(&[], false).unwrap().as_bytes(), b"OK unsynced n=0 more=0\r\n");
    assert_eq!(ack_response(Refusal::NoSuchFlight).as_bytes(), b"ERR no such flight\r\n");
    assert_eq!(ack_response(Refusal::Recording).as_bytes(), b"ERR flight still recording\r\n");
    assert_eq!(ack_response(Refusal::LengthChanged).as_bytes(), b"ERR flight length changed; download it again\r\n");
    assert_eq!(ack_response(Refusal::LedgerFull).as_bytes(), b"ERR sync ledger full; erase the log over USB\r\n");
    assert_eq!(ack_response(Refusal::Corrupt).as_bytes(), b"");
}

#[test]
fn the_store_programs_erases_and_reads() {
    let mut image = image(&[]);
    let mut keep = [0; 256];
    keep[0] = 0b1000_0000;
    assert_eq!(
        page_program(CAPACITY, &mut image, 300, &[0, 1], &keep, 5),
        Err(Refused { refusal: Refusal::Device, fault: 5 })
    );
    assert_eq!(image[299..303], [0xff, 0b1000_0000, 1, 0xff]);
    assert_eq!(page_program(CAPACITY, &mut image, 300, &[0, 1], &keep, 0), Ok(()));
    assert_eq!(image[299..303], [0xff, 0, 1, 0xff]);
    let before = image.clone();
    assert_eq!(page_program(CAPACITY, &mut image, 511, &[0, 0], &keep, 0), Err(refused(Refusal::BadLength)));
    assert_eq!(erase_sector_4k(CAPACITY, &mut image, 4_095, 0), Err(refused(Refusal::BadLength)));
    assert_eq!(erase_sector_4k(CAPACITY, &mut image, 0, 8), Err(Refused { refusal: Refusal::Device, fault: 8 }));
    assert_eq!(image, before);
    let mut output = [7; 3];
    assert_eq!(read(flash(&image), 300, &mut output), Ok(()));
    assert_eq!(output, [0, 1, 0xff]);
    assert_eq!(read(flash(&image), 510, &mut output), Err(refused(Refusal::BadLength)));
    assert_eq!(output, [0, 1, 0xff]);
    assert_eq!(erase_sector_4k(CAPACITY, &mut image, 0, 0), Ok(()));
    assert!(image.iter().all(|&byte| byte == 0xff));
}

#[test]
fn the_assembler_makes_pages() {
    use AssemblerCall::*;
    let start = Start { flight_id: 4, boot_session_start: true };
    assert_eq!(assemble(&[]).unwrap(), Assembled { flag: false, flight: 0, page: [0; 256] });
    assert_eq!(assemble(&[Push(record(1))]), Err(refused(Refusal::NotRecording)));
    let mut script = vec![start, Push(record(1)), Push(record(2)), Push(record(3)), Push(record(4))];
    assert!(!assemble(&script).unwrap().flag);
    script.push(Push(record(5)));
    assert!(assemble(&script).unwrap().flag);
    script.push(Push(record(6)));
    assert_eq!(assemble(&script), Err(refused(Refusal::PageNotConsumed)));
    script.push(TakeReadyPage);
    let taken = assemble(&script).unwrap();
    let first = FlightRecord { flags: 4, ..record(1) };
    assert!(taken.flag);
    assert_eq!(taken.page, encode_page(4, 0, &[first, record(2), record(3), record(4), record(5)]).unwrap());
    script.extend([Push(record(6)), Stop, UnfinishedFlight { page_pending: false }]);
    let unfinished = assemble(&script).unwrap();
    assert_eq!((unfinished.flag, unfinished.flight), (true, 4));
    script.push(Recording);
    assert!(!assemble(&script).unwrap().flag);
    script.push(TakeReadyPage);
    assert_eq!(assemble(&script).unwrap().page, encode_page(4, 1, &[record(6)]).unwrap());
}
