//! The C exports, as rust/ declares them: each slice is a pointer and a length. What the archive does with them is what the oracle
//! compares, so nothing here looks at a length or an answer.

use crate::blackbox::FlightRecord;
use stipeflute::ffi::*;

pub fn crc32(bytes: &[u8], answer: &mut [u8]) -> u32 {
    unsafe { stipeflute_crc32(bytes.as_ptr(), bytes.len(), answer.as_mut_ptr(), answer.len()) }
}

pub fn record_encode(record: FlightRecord, answer: &mut [u8]) -> u32 {
    let FlightRecord { raw_gyro_dps10: r, filtered_gyro_dps10: f, command_dps10: c, pid: p, motors: m, .. } = record;
    let (answer_at, answer_len) = (answer.as_mut_ptr(), answer.len());
    unsafe {
        stipeflute_record_encode(
            record.timestamp_us,
            record.control_sequence,
            record.imu_sequence,
            record.flags,
            r[0],
            r[1],
            r[2],
            f[0],
            f[1],
            f[2],
            c[0],
            c[1],
            c[2],
            p[0],
            p[1],
            p[2],
            record.throttle,
            m[0],
            m[1],
            m[2],
            m[3],
            answer_at,
            answer_len,
        )
    }
}

pub fn record_decode(input: &[u8], answer: &mut [u8]) -> u32 {
    unsafe { stipeflute_record_decode(input.as_ptr(), input.len(), answer.as_mut_ptr(), answer.len()) }
}

pub fn encode_page(flight_id: u32, page_sequence: u32, rows: &[u8], count: u32, answer: &mut [u8]) -> u32 {
    unsafe { stipeflute_encode_page(flight_id, page_sequence, rows.as_ptr(), rows.len(), count, answer.as_mut_ptr(), answer.len()) }
}

pub fn decode_page(page: &[u8], answer: &mut [u8]) -> u32 {
    unsafe { stipeflute_decode_page(page.as_ptr(), page.len(), answer.as_mut_ptr(), answer.len()) }
}

pub fn record_from_page(page: &[u8], index: u32, answer: &mut [u8]) -> u32 {
    unsafe { stipeflute_record_from_page(page.as_ptr(), page.len(), index, answer.as_mut_ptr(), answer.len()) }
}

pub fn scratch_test_page(answer: &mut [u8]) -> u32 {
    unsafe { stipeflute_scratch_test_page(answer.as_mut_ptr(), answer.len()) }
}

pub fn storage_layout(capacity_bytes: u32, answer: &mut [u8]) -> u32 {
    unsafe { stipeflute_storage_layout(capacity_bytes, answer.as_mut_ptr(), answer.len()) }
}

pub fn log_page_address(capacity_bytes: u32, page_index: u32, answer: &mut [u8]) -> u32 {
    unsafe { stipeflute_log_page_address(capacity_bytes, page_index, answer.as_mut_ptr(), answer.len()) }
}

pub fn log_sector_count(capacity_bytes: u32, answer: &mut [u8]) -> u32 {
    unsafe { stipeflute_log_sector_count(capacity_bytes, answer.as_mut_ptr(), answer.len()) }
}

pub fn sync_ledger_address(capacity_bytes: u32, answer: &mut [u8]) -> u32 {
    unsafe { stipeflute_sync_ledger_address(capacity_bytes, answer.as_mut_ptr(), answer.len()) }
}

pub fn log_erase_sector_address(capacity_bytes: u32, step: u32, answer: &mut [u8]) -> u32 {
    unsafe { stipeflute_log_erase_sector_address(capacity_bytes, step, answer.as_mut_ptr(), answer.len()) }
}

pub fn read(capacity_bytes: u32, image: &[u8], faults: &[u8], address: u32, output: &mut [u8]) -> u32 {
    unsafe {
        stipeflute_read(
            capacity_bytes,
            image.as_ptr(),
            image.len(),
            faults.as_ptr(),
            faults.len(),
            address,
            output.as_mut_ptr(),
            output.len(),
        )
    }
}

pub fn page_program(capacity_bytes: u32, image: &mut [u8], address: u32, target: &[u8], keep: &[u8], reply: u8) -> u32 {
    unsafe {
        stipeflute_page_program(
            capacity_bytes,
            image.as_mut_ptr(),
            image.len(),
            address,
            target.as_ptr(),
            target.len(),
            keep.as_ptr(),
            keep.len(),
            reply,
        )
    }
}

pub fn erase_sector_4k(capacity_bytes: u32, image: &mut [u8], address: u32, reply: u8) -> u32 {
    unsafe { stipeflute_erase_sector_4k(capacity_bytes, image.as_mut_ptr(), image.len(), address, reply) }
}

pub fn scan_log(capacity_bytes: u32, image: &[u8], faults: &[u8], answer: &mut [u8]) -> u32 {
    unsafe {
        stipeflute_scan_log(capacity_bytes, image.as_ptr(), image.len(), faults.as_ptr(), faults.len(), answer.as_mut_ptr(), answer.len())
    }
}

pub fn explain(capacity_bytes: u32, image: &[u8], faults: &[u8], answer: &mut [u8]) -> u32 {
    unsafe {
        stipeflute_explain(capacity_bytes, image.as_ptr(), image.len(), faults.as_ptr(), faults.len(), answer.as_mut_ptr(), answer.len())
    }
}

pub fn page_flight_id(capacity_bytes: u32, image: &[u8], faults: &[u8], index: u32, answer: &mut [u8]) -> u32 {
    unsafe {
        stipeflute_page_flight_id(
            capacity_bytes,
            image.as_ptr(),
            image.len(),
            faults.as_ptr(),
            faults.len(),
            index,
            answer.as_mut_ptr(),
            answer.len(),
        )
    }
}

pub fn find_flight(capacity_bytes: u32, image: &[u8], faults: &[u8], used_pages: u32, flight_id: u32, answer: &mut [u8]) -> u32 {
    unsafe {
        stipeflute_find_flight(
            capacity_bytes,
            image.as_ptr(),
            image.len(),
            faults.as_ptr(),
            faults.len(),
            used_pages,
            flight_id,
            answer.as_mut_ptr(),
            answer.len(),
        )
    }
}

pub fn older_flight(capacity_bytes: u32, image: &[u8], faults: &[u8], end: u32, answer: &mut [u8]) -> u32 {
    unsafe {
        stipeflute_older_flight(
            capacity_bytes,
            image.as_ptr(),
            image.len(),
            faults.as_ptr(),
            faults.len(),
            end,
            answer.as_mut_ptr(),
            answer.len(),
        )
    }
}

pub fn read_header(capacity_bytes: u32, image: &[u8], faults: &[u8], answer: &mut [u8]) -> u32 {
    unsafe {
        stipeflute_read_header(
            capacity_bytes,
            image.as_ptr(),
            image.len(),
            faults.as_ptr(),
            faults.len(),
            answer.as_mut_ptr(),
            answer.len(),
        )
    }
}

pub fn bit_location(capacity_bytes: u32, flight_id: u32, answer: &mut [u8]) -> u32 {
    unsafe { stipeflute_bit_location(capacity_bytes, flight_id, answer.as_mut_ptr(), answer.len()) }
}

pub fn is_synced(capacity_bytes: u32, image: &[u8], faults: &[u8], flight_id: u32, answer: &mut [u8]) -> u32 {
    unsafe {
        stipeflute_is_synced(
            capacity_bytes,
            image.as_ptr(),
            image.len(),
            faults.as_ptr(),
            faults.len(),
            flight_id,
            answer.as_mut_ptr(),
            answer.len(),
        )
    }
}

pub fn next_mark_step(capacity_bytes: u32, image: &[u8], faults: &[u8], flight_id: u32, answer: &mut [u8]) -> u32 {
    unsafe {
        stipeflute_next_mark_step(
            capacity_bytes,
            image.as_ptr(),
            image.len(),
            faults.as_ptr(),
            faults.len(),
            flight_id,
            answer.as_mut_ptr(),
            answer.len(),
        )
    }
}

pub fn start_mark_step(capacity_bytes: u32, image: &mut [u8], kind: u8, address: u32, value: u8, keep: &[u8], reply: u8) -> u32 {
    unsafe {
        stipeflute_start_mark_step(capacity_bytes, image.as_mut_ptr(), image.len(), kind, address, value, keep.as_ptr(), keep.len(), reply)
    }
}

pub fn unsynced_flights(
    capacity_bytes: u32,
    image: &[u8],
    faults: &[u8],
    used_pages: u32,
    is_recording: u8,
    recording: u32,
    answer: &mut [u8],
) -> u32 {
    unsafe {
        stipeflute_unsynced_flights(
            capacity_bytes,
            image.as_ptr(),
            image.len(),
            faults.as_ptr(),
            faults.len(),
            used_pages,
            is_recording,
            recording,
            answer.as_mut_ptr(),
            answer.len(),
        )
    }
}

pub fn all_synced(
    capacity_bytes: u32,
    image: &[u8],
    faults: &[u8],
    used_pages: u32,
    is_recording: u8,
    recording: u32,
    answer: &mut [u8],
) -> u32 {
    unsafe {
        stipeflute_all_synced(
            capacity_bytes,
            image.as_ptr(),
            image.len(),
            faults.as_ptr(),
            faults.len(),
            used_pages,
            is_recording,
            recording,
            answer.as_mut_ptr(),
            answer.len(),
        )
    }
}

#[allow(clippy::too_many_arguments)]
pub fn check_ack(
    capacity_bytes: u32,
    image: &[u8],
    faults: &[u8],
    used_pages: u32,
    is_recording: u8,
    recording: u32,
    flight_id: u32,
    pages: u32,
) -> u32 {
    unsafe {
        stipeflute_check_ack(
            capacity_bytes,
            image.as_ptr(),
            image.len(),
            faults.as_ptr(),
            faults.len(),
            used_pages,
            is_recording,
            recording,
            flight_id,
            pages,
        )
    }
}

pub fn unsynced_lines(flights: &[u8], count: u32, more: u8, answer: &mut [u8]) -> u32 {
    unsafe { stipeflute_unsynced_lines(flights.as_ptr(), flights.len(), count, more, answer.as_mut_ptr(), answer.len()) }
}

pub fn ack_response(number: u8, answer: &mut [u8]) -> u32 {
    unsafe { stipeflute_ack_response(number, answer.as_mut_ptr(), answer.len()) }
}

pub fn assemble(script: &[u8], answer: &mut [u8]) -> u32 {
    unsafe { stipeflute_assemble(script.as_ptr(), script.len(), answer.as_mut_ptr(), answer.len()) }
}

pub fn rig(capacity_bytes: u32, image: &mut [u8], script: &[u8], output: &mut [u8]) -> u32 {
    unsafe {
        stipeflute_rig(capacity_bytes, image.as_mut_ptr(), image.len(), script.as_ptr(), script.len(), output.as_mut_ptr(), output.len())
    }
}
