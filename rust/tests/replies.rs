//! What a reply carries and what a call writes, on the calls of the header as they are.

use stipeflute::ffi::*;

static IMAGE: [u8; 20_480] = [0xff; 20_480];

/// A scan with an answer row of any length, which held 0xaa: the reply, and whether the row stayed.
fn scan(capacity: u32, faults: &[u8], answer: &mut [u8]) -> (u32, bool) {
    answer.fill(0xaa);
    let reply = unsafe {
        let (bytes, len) = (answer.as_mut_ptr(), answer.len());
        stipeflute_scan_log(capacity, IMAGE.as_ptr(), IMAGE.len(), faults.as_ptr(), faults.len(), bytes, len)
    };
    (reply, answer.iter().all(|&byte| byte == 0xaa))
}

#[test]
fn a_row_of_another_length_is_refused_17_after_5_and_before_6() {
    let mut faults = [0; 80];
    assert_eq!(scan(20_480, &faults, &mut [0; 9]), (0, false));
    faults.fill(0x33);
    for (capacity, len, reply) in [(20_480, 9, 0x3306), (20_480, 8, 17), (20_480, 10, 17), (20_480, 0, 17), (20_481, 8, 5)] {
        assert_eq!(scan(capacity, &faults, &mut vec![0; len]), (reply, true));
    }
}

#[test]
fn a_row_is_written_whole_and_no_further() {
    let mut bytes = [0xaa; 11];
    let reply = unsafe { stipeflute_crc32(b"123456789".as_ptr(), 9, bytes[3..].as_mut_ptr(), 4) };
    assert_eq!((reply, bytes), (0, [0xaa, 0xaa, 0xaa, 0x26, 0x39, 0xf4, 0xcb, 0xaa, 0xaa, 0xaa, 0xaa]));
}

#[test]
fn any_flag_but_0_is_true_and_any_kind_from_3_on_is_done() {
    let (faults, keep) = ([0; 80], [0; 256]);
    for (flag, expected) in [(0, 1), (1, 0), (2, 0), (255, 0)] {
        let mut answer = [9];
        let reply = unsafe {
            stipeflute_all_synced(20_480, IMAGE.as_ptr(), IMAGE.len(), faults.as_ptr(), 80, 0, flag, 0, answer.as_mut_ptr(), 1)
        };
        assert_eq!((reply, answer), (0, [expected]));
    }
    for kind in [3, 4, 255] {
        let mut image = IMAGE;
        let reply = unsafe {
            stipeflute_start_mark_step(20_480, image.as_mut_ptr(), image.len(), kind, 1, 0, keep.as_ptr(), keep.len(), 77)
        };
        assert_eq!((reply, image == IMAGE), (0, true));
    }
}

#[test]
fn scripts_and_rows_of_other_lengths_are_refused() {
    let (mut page, mut lines, mut answer) = ([0xaa; 256], [0xaa; 476], [0xaa; 261]);
    let rows = [0; 241];
    unsafe {
        assert_eq!(stipeflute_encode_page(1, 0, rows.as_ptr(), 241, 6, page.as_mut_ptr(), 256), 17);
        assert_eq!(stipeflute_encode_page(1, 0, rows.as_ptr(), 240, 6, page.as_mut_ptr(), 256), 1);
        assert_eq!(stipeflute_unsynced_lines(rows.as_ptr(), 95, 0, 0, lines.as_mut_ptr(), 476), 17);
        assert_eq!(stipeflute_unsynced_lines(rows.as_ptr(), 96, 9, 0, lines.as_mut_ptr(), 476), 17);
        assert_eq!(stipeflute_assemble(rows.as_ptr(), 53, answer.as_mut_ptr(), 261), 17);
    }
    assert_eq!((page, lines, answer), ([0xaa; 256], [0xaa; 476], [0xaa; 261]));
    let push: [u8; 54] = core::array::from_fn(|i| if i == 0 { 2 } else { 0 });
    assert_eq!(unsafe { stipeflute_assemble(push.as_ptr(), 54, answer.as_mut_ptr(), 260) }, 17);
    assert_eq!(unsafe { stipeflute_assemble(push.as_ptr(), 54, answer.as_mut_ptr(), 261) }, 9);
    assert_eq!(answer, [0xaa; 261]);
}
