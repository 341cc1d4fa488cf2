//! The calls of include/stipeflute.h as they are. Each slice is a pointer and a length; the header says what each call takes, answers and
//! refuses.

extern "C" {
    pub fn stipeflute_crc32(bytes: *const u8, bytes_len: usize, answer: *mut u8, answer_len: usize) -> u32;
    pub fn stipeflute_record_encode(
        timestamp_us: u32,
        control_sequence: u32,
        imu_sequence: u32,
        flags: u16,
        raw_gyro_dps10_0: i16,
        raw_gyro_dps10_1: i16,
        raw_gyro_dps10_2: i16,
        filtered_gyro_dps10_0: i16,
        filtered_gyro_dps10_1: i16,
        filtered_gyro_dps10_2: i16,
        command_dps10_0: i16,
        command_dps10_1: i16,
        command_dps10_2: i16,
        pid_0: i16,
        pid_1: i16,
        pid_2: i16,
        throttle: u16,
        motors_0: u16,
        motors_1: u16,
        motors_2: u16,
        motors_3: u16,
        answer: *mut u8,
        answer_len: usize,
    ) -> u32;
    pub fn stipeflute_record_decode(input: *const u8, input_len: usize, answer: *mut u8, answer_len: usize) -> u32;
    pub fn stipeflute_encode_page(
        flight_id: u32,
        page_sequence: u32,
        rows: *const u8,
        rows_len: usize,
        count: u32,
        answer: *mut u8,
        answer_len: usize,
    ) -> u32;
    pub fn stipeflute_decode_page(page: *const u8, page_len: usize, answer: *mut u8, answer_len: usize) -> u32;
    pub fn stipeflute_record_from_page(page: *const u8, page_len: usize, index: u32, answer: *mut u8, answer_len: usize) -> u32;
    pub fn stipeflute_scratch_test_page(answer: *mut u8, answer_len: usize) -> u32;

    pub fn stipeflute_storage_layout(capacity_bytes: u32, answer: *mut u8, answer_len: usize) -> u32;
    pub fn stipeflute_log_page_address(capacity_bytes: u32, page_index: u32, answer: *mut u8, answer_len: usize) -> u32;
    pub fn stipeflute_log_sector_count(capacity_bytes: u32, answer: *mut u8, answer_len: usize) -> u32;
    pub fn stipeflute_sync_ledger_address(capacity_bytes: u32, answer: *mut u8, answer_len: usize) -> u32;
    pub fn stipeflute_log_erase_sector_address(capacity_bytes: u32, step: u32, answer: *mut u8, answer_len: usize) -> u32;

    pub fn stipeflute_read(
        capacity_bytes: u32,
        image: *const u8,
        image_len: usize,
        faults: *const u8,
        faults_len: usize,
        address: u32,
        output: *mut u8,
        output_len: usize,
    ) -> u32;
    pub fn stipeflute_page_program(
        capacity_bytes: u32,
        image: *mut u8,
        image_len: usize,
        address: u32,
        target: *const u8,
        target_len: usize,
        keep: *const u8,
        keep_len: usize,
        reply: u8,
    ) -> u32;
    pub fn stipeflute_erase_sector_4k(capacity_bytes: u32, image: *mut u8, image_len: usize, address: u32, reply: u8) -> u32;

    pub fn stipeflute_scan_log(
        capacity_bytes: u32,
        image: *const u8,
        image_len: usize,
        faults: *const u8,
        faults_len: usize,
        answer: *mut u8,
        answer_len: usize,
    ) -> u32;
    pub fn stipeflute_explain(
        capacity_bytes: u32,
        image: *const u8,
        image_len: usize,
        faults: *const u8,
        faults_len: usize,
        answer: *mut u8,
        answer_len: usize,
    ) -> u32;
    pub fn stipeflute_page_flight_id(
        capacity_bytes: u32,
        image: *const u8,
        image_len: usize,
        faults: *const u8,
        faults_len: usize,
        index: u32,
        answer: *mut u8,
        answer_len: usize,
    ) -> u32;
    pub fn stipeflute_find_flight(
        capacity_bytes: u32,
        image: *const u8,
        image_len: usize,
        faults: *const u8,
        faults_len: usize,
        used_pages: u32,
        flight_id: u32,
        answer: *mut u8,
        answer_len: usize,
    ) -> u32;
    pub fn stipeflute_older_flight(
        capacity_bytes: u32,
        image: *const u8,
        image_len: usize,
        faults: *const u8,
        faults_len: usize,
        end: u32,
        answer: *mut u8,
        answer_len: usize,
    ) -> u32;

    pub fn stipeflute_read_header(
        capacity_bytes: u32,
        image: *const u8,
        image_len: usize,
        faults: *const u8,
        faults_len: usize,
        answer: *mut u8,
        answer_len: usize,
    ) -> u32;
    pub fn stipeflute_bit_location(capacity_bytes: u32, flight_id: u32, answer: *mut u8, answer_len: usize) -> u32;
    pub fn stipeflute_is_synced(
        capacity_bytes: u32,
        image: *const u8,
        image_len: usize,
        faults: *const u8,
        faults_len: usize,
        flight_id: u32,
        answer: *mut u8,
        answer_len: usize,
    ) -> u32;
    pub fn stipeflute_next_mark_step(
        capacity_bytes: u32,
        image: *const u8,
        image_len: usize,
        faults: *const u8,
        faults_len: usize,
        flight_id: u32,
        answer: *mut u8,
        answer_len: usize,
    ) -> u32;
    pub fn stipeflute_start_mark_step(
        capacity_bytes: u32,
        image: *mut u8,
        image_len: usize,
        kind: u8,
        address: u32,
        value: u8,
        keep: *const u8,
        keep_len: usize,
        reply: u8,
    ) -> u32;

    pub fn stipeflute_unsynced_flights(
        capacity_bytes: u32,
        image: *const u8,
        image_len: usize,
        faults: *const u8,
        faults_len: usize,
        used_pages: u32,
        is_recording: u8,
        recording: u32,
        answer: *mut u8,
        answer_len: usize,
    ) -> u32;
    pub fn stipeflute_all_synced(
        capacity_bytes: u32,
        image: *const u8,
        image_len: usize,
        faults: *const u8,
        faults_len: usize,
        used_pages: u32,
        is_recording: u8,
        recording: u32,
        answer: *mut u8,
        answer_len: usize,
    ) -> u32;
    pub fn stipeflute_check_ack(
        capacity_bytes: u32,
        image: *const u8,
        image_len: usize,
        faults: *const u8,
        faults_len: usize,
        used_pages: u32,
        is_recording: u8,
        recording: u32,
        flight_id: u32,
        pages: u32,
    ) -> u32;

    pub fn stipeflute_unsynced_lines(
        flights: *const u8,
        flights_len: usize,
        count: u32,
        more: u8,
        answer: *mut u8,
        answer_len: usize,
    ) -> u32;
    pub fn stipeflute_ack_response(number: u8, answer: *mut u8, answer_len: usize) -> u32;

    pub fn stipeflute_assemble(script: *const u8, script_len: usize, answer: *mut u8, answer_len: usize) -> u32;

    pub fn stipeflute_rig(
        capacity_bytes: u32,
        image: *mut u8,
        image_len: usize,
        script: *const u8,
        script_len: usize,
        output: *mut u8,
        output_len: usize,
    ) -> u32;
}
