//! How much stack each call of the header uses. Each is made on a thread whose stack is a buffer of this test, filled with one byte
//! before: what is no longer that byte was used, from the place where the thread stood when it made the call. A call may use 4 KB, or what its
//! comment in include/stipeflute.h says ("Stack: N KB").

use std::collections::BTreeMap;
use std::ffi::c_void;
use std::hint::black_box;
use stipeflute::ffi::*;
use stipeflute::{encode_page, FlightRecord, RECORD_LEN};

const STACK: usize = 256 * 1024;
const FILL: u8 = 0xa5;

/// glibc's pthread_attr_t, which has at most 64 bytes.
#[repr(C, align(16))]
struct Attributes([u8; 64]);

/// A stack at the start of a page.
#[repr(C, align(4096))]
struct Stack([u8; STACK]);

extern "C" {
    fn pthread_attr_init(attributes: *mut Attributes) -> i32;
    fn pthread_attr_setstack(attributes: *mut Attributes, address: *mut c_void, size: usize) -> i32;
    fn pthread_create(
        thread: *mut usize,
        attributes: *const Attributes,
        start: extern "C" fn(*mut c_void) -> *mut c_void,
        argument: *mut c_void,
    ) -> i32;
    fn pthread_join(thread: usize, returned: *mut *mut c_void) -> i32;
}

/// A thread's whole work: the call.
extern "C" fn start(call: *mut c_void) -> *mut c_void {
    let call = unsafe { &mut *call.cast::<&mut dyn FnMut()>() };
    call();
    std::ptr::null_mut()
}

/// The lowest address of a thread's stack that is used where it makes this call.
fn deepest(mut call: &mut dyn FnMut()) -> usize {
    let mut stack = Box::new(Stack([FILL; STACK]));
    let mut attributes = Attributes([0; 64]);
    let (mut thread, mut returned) = (0, std::ptr::null_mut());
    unsafe {
        assert_eq!(pthread_attr_init(&mut attributes), 0);
        assert_eq!(pthread_attr_setstack(&mut attributes, stack.0.as_mut_ptr().cast(), STACK), 0);
        let argument: *mut &mut dyn FnMut() = &mut call;
        assert_eq!(pthread_create(&mut thread, &attributes, start, argument.cast()), 0);
        assert_eq!(pthread_join(thread, &mut returned), 0);
    }
    stack.0.as_ptr() as usize + stack.0.iter().take_while(|&&byte| byte == FILL).count()
}

/// The calls of the header by name, each with the KB that it may use.
fn allowed() -> BTreeMap<String, usize> {
    let header = include_str!("../../include/stipeflute.h");
    let mut parts = header.split("\nuint32_t ").peekable();
    let mut allowed = BTreeMap::new();
    while let Some(part) = parts.next() {
        let Some(next) = parts.peek() else { break };
        let comment = &part[part.rfind("/*").expect("a comment stands before each call")..];
        let name = next.split('(').next().unwrap().to_string();
        let kilobytes = comment.split("Stack: ").nth(1).map_or(4, |text| text.split(' ').next().unwrap().parse().unwrap());
        allowed.insert(name, kilobytes);
    }
    allowed
}

const CAPACITY: u32 = 61_440;
const LEN: usize = 61_440;

/// A full log of 88 flights of two pages, five records in each.
fn full_log() -> Vec<u8> {
    let none = FlightRecord::decode(&[0; RECORD_LEN]).unwrap();
    let mut image = vec![0xff; LEN];
    for index in 0..176u32 {
        let page = encode_page(index / 2 + 1, index, &[none; 5]).unwrap();
        image[12_288 + 256 * index as usize..][..256].copy_from_slice(&page);
    }
    image
}

/// A script with every operation: a queue filled and drained into pages, a failed program, a cut, the other calls.
fn script() -> Vec<u8> {
    let row = |operation: u8, next: u8, first: u32, second: u32| {
        let mut row = [0u8; 288];
        row[..4].copy_from_slice(&[32, 1, operation, next]);
        row[8..12].copy_from_slice(&first.to_le_bytes());
        row[12..16].copy_from_slice(&second.to_le_bytes());
        row
    };
    let mut offer = row(0, 0, 0, 0);
    offer[44] = 1;
    let mut rows = vec![row(3, 0, 0, 0)];
    rows.extend([offer; 32]);
    rows.extend([row(1, 1, 16, 99), row(1, 1, 16, 0), row(2, 1, 0, 9), row(1, 0, 16, 0), row(1, 2, 16, 0)]);
    rows.extend([row(3, 0, 0, 0), offer, offer, row(1, 1, 16, 9), row(1, 1, 16, 9), row(2, 2, 0, 0)]);
    rows.extend([row(4, 0, 3, 4), row(5, 0, 0, 0), row(6, 0, 0, 0)]);
    rows.concat()
}

/// Calls of an assembler: a flight of six records that is stopped, its pages taken.
fn assembler_script() -> Vec<u8> {
    let row = |call: u8| {
        let mut row = [0u8; 54];
        row[0] = call;
        row
    };
    let mut rows = vec![row(1)];
    rows.extend([row(2); 5]);
    rows.extend([row(4), row(2), row(5), row(3)]);
    rows.concat()
}

#[test]
fn no_call_uses_more_stack_than_the_header_says() {
    let allowed = allowed();
    let (log, faults, keep, rows) = (full_log(), vec![0u8; 240], [0u8; 256], [0u8; 240]);
    let (script, assembler) = (script(), assembler_script());
    let mut output = vec![0u8; script.len() / 288 * 40];
    let mut image = vec![0xff; LEN];
    let mut answer = [0u8; 512];
    let (a, page) = (answer.as_mut_ptr(), &log[12_288..12_544]);
    let (i, f) = (log.as_ptr(), faults.as_ptr());
    let mut measured = BTreeMap::new();
    macro_rules! measure {
        ($($call:ident($($argument:expr),*);)*) => {
            $({
                let (mut reply, mut from) = (u32::MAX, 0);
                let deepest = deepest(&mut || {
                    let here = 0u8;
                    from = black_box(&here) as *const u8 as usize;
                    reply = unsafe { $call($($argument),*) };
                });
                assert_eq!(reply, 0, "{} is not refused", stringify!($call));
                measured.insert(stringify!($call).to_string(), from - deepest);
            })*
        };
    }
    measure! {
        stipeflute_crc32(i, LEN, a, 4);
        stipeflute_record_encode(1, 2, 3, 4, 5, 6, 7, 8, 9, 10, 11, 12, 13, 14, 15, 16, 17, 18, 19, 20, 21, a, 48);
        stipeflute_record_decode(page.as_ptr(), 48, a, 48);
        stipeflute_encode_page(1, 2, rows.as_ptr(), 240, 5, a, 256);
        stipeflute_decode_page(page.as_ptr(), 256, a, 9);
        stipeflute_record_from_page(page.as_ptr(), 256, 4, a, 48);
        stipeflute_scratch_test_page(a, 256);
        stipeflute_storage_layout(CAPACITY, a, 20);
        stipeflute_log_page_address(CAPACITY, 3, a, 5);
        stipeflute_log_sector_count(CAPACITY, a, 4);
        stipeflute_sync_ledger_address(CAPACITY, a, 4);
        stipeflute_log_erase_sector_address(CAPACITY, 1, a, 5);
        stipeflute_read(CAPACITY, i, LEN, f, 240, 12_288, a, 256);
        stipeflute_page_program(CAPACITY, image.as_mut_ptr(), LEN, 12_288, page.as_ptr(), 256, keep.as_ptr(), 256, 0);
        stipeflute_erase_sector_4k(CAPACITY, image.as_mut_ptr(), LEN, 12_288, 0);
        stipeflute_scan_log(CAPACITY, i, LEN, f, 240, a, 9);
        stipeflute_explain(CAPACITY, i, LEN, f, 240, a, 11);
        stipeflute_page_flight_id(CAPACITY, i, LEN, f, 240, 3, a, 5);
        stipeflute_find_flight(CAPACITY, i, LEN, f, 240, 176, 40, a, 13);
        stipeflute_older_flight(CAPACITY, i, LEN, f, 240, 176, a, 13);
        stipeflute_read_header(CAPACITY, i, LEN, f, 240, a, 1);
        stipeflute_bit_location(CAPACITY, 40, a, 5);
        stipeflute_is_synced(CAPACITY, i, LEN, f, 240, 40, a, 1);
        stipeflute_next_mark_step(CAPACITY, i, LEN, f, 240, 40, a, 6);
        stipeflute_start_mark_step(CAPACITY, image.as_mut_ptr(), LEN, 1, 57_344, 0, keep.as_ptr(), 256, 0);
        stipeflute_unsynced_flights(CAPACITY, i, LEN, f, 240, 176, 0, 0, a, 98);
        stipeflute_all_synced(CAPACITY, i, LEN, f, 240, 176, 0, 0, a, 1);
        stipeflute_check_ack(CAPACITY, i, LEN, f, 240, 176, 0, 0, 40, 2);
        stipeflute_unsynced_lines(rows.as_ptr(), 96, 8, 1, a, 476);
        stipeflute_ack_response(12, a, 60);
        stipeflute_assemble(assembler.as_ptr(), assembler.len(), a, 261);
        stipeflute_rig(CAPACITY, image.as_mut_ptr(), LEN, script.as_ptr(), script.len(), output.as_mut_ptr(), output.len());
    }
    for (call, used) in &measured {
        println!("{call}: {used} bytes");
    }
    assert!(measured.keys().eq(allowed.keys()), "every call of the header is made: {:?}", allowed.keys());
    for (call, used) in &measured {
        assert!(*used <= allowed[call] * 1024, "{call} used {used} bytes of stack, and the header says {} KB", allowed[call]);
    }
}
