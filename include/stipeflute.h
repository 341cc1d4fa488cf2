/* The flight log of FerroWasp, ported and proved: the calls of libstipeflute.a, on numbers and byte slices only.
 *
 * Reply. Every call returns one number. Its low byte is the refusal, 0 where there is none, and the byte above it the device's fault
 * byte where the refusal is STIPEFLUTE_DEVICE and 0 with any other; the two bytes above those are 0. STIPEFLUTE_REFUSAL and
 * STIPEFLUTE_FAULT take it apart.
 *
 * Slices. A slice is a pointer and a length in bytes. The pointer must not be null, also where the length is 0, and must be good for
 * the length; what a call writes (`answer`, `output`, `image` where it is not const) must not overlap another slice of that call.
 * Nothing is kept after the call. No call allocates or blocks. A call whose slices are as said and that has its stack ends, and what it
 * refuses it tells by its reply alone.
 *
 * Answer. `answer` is a row of bytes of the one length that the call's comment gives; numbers in it are little-endian, flags are 0 or
 * 1, and an Option is a flag (0 none, 1 some) and its value, which is 0 where there is none. The row is written whole where nothing
 * is refused; where something is refused it is left as it was, and so is every other lent byte, but for what a failing device itself
 * stored (stipeflute_page_program, stipeflute_start_mark_step).
 *
 * Stack. A call uses at most 4 KB of stack, but for the two whose comment says more.
 *
 * Flags that are handed in are u8: 0 is false, any other value is true. An Option that is handed in is such a flag and a value, which
 * is not looked at where the flag is 0.
 *
 * Order of refusals. 5 (capacity) first, then 17 (the length of the answer row or of any other slice), then the call's own, in the order
 * in which its comment names them. An answer row of another length is refused 17.
 *
 * Image. `image` is the whole flash, as long as its capacity; `faults` has one byte for each 256 bytes of it, 0 where they read well.
 * Log page i is the 256 bytes from 12288 + 256 * i on. A record has 48 bytes: timestamp_us at 0, control_sequence at 4, imu_sequence at
 * 8 (u32 each); flags at 12 (u16); raw gyro at 14, filtered gyro at 20, command at 26, pid at 32 (three i16 each); throttle at 38 (u16);
 * motors at 40 (four u16). */
#ifndef STIPEFLUTE_H
#define STIPEFLUTE_H

#include <stddef.h>
#include <stdint.h>

#ifdef __cplusplus
extern "C" {
#endif

/* ---- refusals */

#define STIPEFLUTE_INVALID_RECORD_COUNT 1 /* more than 5 records, or a record index not below the page's count */
#define STIPEFLUTE_INVALID_MAGIC 2        /* bytes 240, 241 of a page are not "FB" */
#define STIPEFLUTE_UNSUPPORTED_VERSION 3  /* byte 242 of a page is not 1 */
#define STIPEFLUTE_CRC_MISMATCH 4         /* the stored checksum differs */
#define STIPEFLUTE_INVALID_LAYOUT 5       /* a capacity not above 16384, above 16777216, or no multiple of 4096 */
#define STIPEFLUTE_DEVICE 6               /* a read has a fault, or a program or erase fails; the fault byte goes along */
#define STIPEFLUTE_CORRUPT 7              /* a page that the search reads has no flight, or lies past the log */
#define STIPEFLUTE_OUT_OF_RANGE 8         /* flight 0 or above 32704, at the ledger */
#define STIPEFLUTE_NOT_RECORDING 9        /* a push while no flight is recorded */
#define STIPEFLUTE_PAGE_NOT_CONSUMED 10   /* a push while a finished page waits */
#define STIPEFLUTE_FORMAT 11              /* encoding fails inside the assembler */
#define STIPEFLUTE_NO_SUCH_FLIGHT 12      /* acknowledgement of flight 0 or of one not found */
#define STIPEFLUTE_RECORDING 13           /* acknowledgement of the unfinished flight */
#define STIPEFLUTE_LENGTH_CHANGED 14      /* the page count differs from the flight found */
#define STIPEFLUTE_LEDGER_FULL 15         /* acknowledgement above 32704 */
#define STIPEFLUTE_QUEUE_FULL 16          /* a record offered to a queue that holds 31 */
#define STIPEFLUTE_BAD_LENGTH 17          /* a slice of another length; a program across a page's or the image's end; no sector */

#define STIPEFLUTE_REFUSAL(reply) ((uint8_t)((reply) & 0xffu))
#define STIPEFLUTE_FAULT(reply) ((uint8_t)(((reply) >> 8) & 0xffu))

/* ---- checksum, records and pages */

/* CRC-32 of IEEE 802.3 over bytes of any number.
 * answer, 4: the checksum (u32). Refused: 17. */
uint32_t stipeflute_crc32(const uint8_t *bytes, size_t bytes_len, uint8_t *answer, size_t answer_len);

/* A record's bytes from its fields.
 * answer, 48: the record. Refused: 17. */
uint32_t stipeflute_record_encode(uint32_t timestamp_us, uint32_t control_sequence, uint32_t imu_sequence, uint16_t flags,
                                  int16_t raw_gyro_dps10_0, int16_t raw_gyro_dps10_1, int16_t raw_gyro_dps10_2,
                                  int16_t filtered_gyro_dps10_0, int16_t filtered_gyro_dps10_1, int16_t filtered_gyro_dps10_2,
                                  int16_t command_dps10_0, int16_t command_dps10_1, int16_t command_dps10_2, int16_t pid_0,
                                  int16_t pid_1, int16_t pid_2, uint16_t throttle, uint16_t motors_0, uint16_t motors_1,
                                  uint16_t motors_2, uint16_t motors_3, uint8_t *answer, size_t answer_len);

/* A record from 48 bytes, its fields laid one after another: the bytes of the record that was decoded.
 * answer, 48: the record. Refused: 17 (also where the input is not 48 bytes). */
uint32_t stipeflute_record_decode(const uint8_t *input, size_t input_len, uint8_t *answer, size_t answer_len);

/* A page of the first `count` of five records. `rows` is 240 bytes, 48 for each; rows from `count` on may hold anything.
 * answer, 256: the page. Refused: 17 (also where rows is not 240 bytes), 1 (count above 5). */
uint32_t stipeflute_encode_page(uint32_t flight_id, uint32_t page_sequence, const uint8_t *rows, size_t rows_len, uint32_t count,
                                uint8_t *answer, size_t answer_len);

/* What a page's trailer says.
 * answer, 9: flight_id (u32) 0, page_sequence (u32) 4, record_count (u8) 8. Refused: 17 (also where page is not 256 bytes), 2, 3, 1, 4. */
uint32_t stipeflute_decode_page(const uint8_t *page, size_t page_len, uint8_t *answer, size_t answer_len);

/* The record at an index of a page.
 * answer, 48: the record. Refused: as stipeflute_decode_page, then 1 where the index is not below the count. */
uint32_t stipeflute_record_from_page(const uint8_t *page, size_t page_len, uint32_t index, uint8_t *answer, size_t answer_len);

/* The deterministic pattern of the destructive scratch-sector tests.
 * answer, 256: the page. Refused: 17. */
uint32_t stipeflute_scratch_test_page(uint8_t *answer, size_t answer_len);

/* ---- layout */

/* The layout of a capacity.
 * answer, 20: capacity_bytes 0, config slot addresses 4 and 8, log_start_address 12, log_page_count 16 (u32 each). Refused: 5, 17. */
uint32_t stipeflute_storage_layout(uint32_t capacity_bytes, uint8_t *answer, size_t answer_len);

/* Where a page of the log begins; none where the index is not below the page count.
 * answer, 5: flag 0, address (u32) 1. Refused: 5, 17. */
uint32_t stipeflute_log_page_address(uint32_t capacity_bytes, uint32_t page_index, uint8_t *answer, size_t answer_len);

/* The sectors that a log erase clears: every log sector and the ledger.
 * answer, 4: the count (u32). Refused: 5, 17. */
uint32_t stipeflute_log_sector_count(uint32_t capacity_bytes, uint8_t *answer, size_t answer_len);

/* The last sector, which holds the ledger.
 * answer, 4: the address (u32). Refused: 5, 17. */
uint32_t stipeflute_sync_ledger_address(uint32_t capacity_bytes, uint8_t *answer, size_t answer_len);

/* The sector that a log erase clears at a step, from the end of the flash down, the ledger first; none past the last.
 * answer, 5: flag 0, address (u32) 1. Refused: 5, 17. */
uint32_t stipeflute_log_erase_sector_address(uint32_t capacity_bytes, uint32_t step, uint8_t *answer, size_t answer_len);

/* ---- store: these have no answer row */

/* Bytes of one page, from an address on, read into `output`, as many as it is long.
 * Refused: 5, 17 (also where they cross a page or the image's end), 6 with the fault byte that stands for them. */
uint32_t stipeflute_read(uint32_t capacity_bytes, const uint8_t *image, size_t image_len, const uint8_t *faults, size_t faults_len,
                         uint32_t address, uint8_t *output, size_t output_len);

/* A program of bytes inside one page: each becomes old AND (target OR keep). `reply` is the device's: 0 succeeds and keeps nothing;
 * another is its fault, and keeps the bits of the 256-byte mask `keep`, whose byte i belongs to target byte i.
 * Refused: 5, 17 (also where the target crosses a page or the image's end), 6 with the reply, after the kept bits were stored. */
uint32_t stipeflute_page_program(uint32_t capacity_bytes, uint8_t *image, size_t image_len, uint32_t address, const uint8_t *target,
                                 size_t target_len, const uint8_t *keep, size_t keep_len, uint8_t reply);

/* A sector erased to 0xff. `reply` is the device's: 0 succeeds; another is its fault, and nothing is altered.
 * Refused: 5, 17 (also where the address is no multiple of 4096 inside the image), 6 with the reply. */
uint32_t stipeflute_erase_sector_4k(uint32_t capacity_bytes, uint8_t *image, size_t image_len, uint32_t address, uint8_t reply);

/* ---- scan and search */

/* The append point, the next flight and whether the log may be written.
 * answer, 9: next_page (u32) 0, next_flight (u32) 4, writable (flag) 8. Refused: 5, 17, 6. */
uint32_t stipeflute_scan_log(uint32_t capacity_bytes, const uint8_t *image, size_t image_len, const uint8_t *faults, size_t faults_len,
                             uint8_t *answer, size_t answer_len);

/* Why the scan answers as it does: the first that holds of
 *   1  page 0 is used and doesn't decode: its decode refusal at 1
 *   2  the last two used pages don't decode: their decode refusals at 1 and 2, their page indexes at 3 and 7, the earlier page's first
 *   3  the halving finds no blank page
 *   0  nothing is wrong
 * With 1 and 2 the scan says foreign, with 3 it says that the log is full, with 0 that it may be written. A decode refusal is
 * 2, 3, 1 or 4. It reads what the scan reads; a fault elsewhere changes nothing.
 * answer, 11: reason 0, refusal 1, refusal 2, page (u32) 3, page (u32) 7, each 0 where it isn't said above. Refused: 5, 17, 6. */
uint32_t stipeflute_explain(uint32_t capacity_bytes, const uint8_t *image, size_t image_len, const uint8_t *faults, size_t faults_len,
                            uint8_t *answer, size_t answer_len);

/* The flight that a log page counts with: its own, else that of the page before it, else none.
 * answer, 5: flag 0, flight (u32) 1. Refused: 5, 17, 7 (a page past the log), 6. */
uint32_t stipeflute_page_flight_id(uint32_t capacity_bytes, const uint8_t *image, size_t image_len, const uint8_t *faults,
                                   size_t faults_len, uint32_t index, uint8_t *answer, size_t answer_len);

/* Where a flight lies in the first `used_pages` log pages, if anywhere.
 * answer, 13: flag 0, flight_id 1, start_page 5, pages 9 (u32 each). Refused: 5, 17, then 7 or 6 of the first page read that has one. */
uint32_t stipeflute_find_flight(uint32_t capacity_bytes, const uint8_t *image, size_t image_len, const uint8_t *faults,
                                size_t faults_len, uint32_t used_pages, uint32_t flight_id, uint8_t *answer, size_t answer_len);

/* The step of a walk from the newest flight down: the newest flight of the first `end` log pages; none where `end` is 0.
 * answer, 13: as stipeflute_find_flight. Refused: as stipeflute_find_flight. */
uint32_t stipeflute_older_flight(uint32_t capacity_bytes, const uint8_t *image, size_t image_len, const uint8_t *faults,
                                 size_t faults_len, uint32_t end, uint8_t *answer, size_t answer_len);

/* ---- ledger */

/* The ledger's header.
 * answer, 1: 0 Blank, 1 Valid, 2 Foreign. Refused: 5, 17, 6. */
uint32_t stipeflute_read_header(uint32_t capacity_bytes, const uint8_t *image, size_t image_len, const uint8_t *faults,
                                size_t faults_len, uint8_t *answer, size_t answer_len);

/* The ledger byte that holds a flight's bit, and that bit's mask.
 * answer, 5: address (u32) 0, mask (u8) 4. Refused: 5, 17, 8. */
uint32_t stipeflute_bit_location(uint32_t capacity_bytes, uint32_t flight_id, uint8_t *answer, size_t answer_len);

/* Whether a host has acknowledged a flight.
 * answer, 1: a flag. Refused: 5, 17, 8, 6. */
uint32_t stipeflute_is_synced(uint32_t capacity_bytes, const uint8_t *image, size_t image_len, const uint8_t *faults, size_t faults_len,
                              uint32_t flight_id, uint8_t *answer, size_t answer_len);

/* The next operation toward acknowledging a flight.
 * answer, 6: kind (u8) 0: 0 EraseLedger, 1 ProgramHeader, 2 ProgramBit, 3 Done; address (u32) 1, 0 for Done; value (u8) 5, 0 but for
 * ProgramBit. Refused: 5, 17, 8, 6. */
uint32_t stipeflute_next_mark_step(uint32_t capacity_bytes, const uint8_t *image, size_t image_len, const uint8_t *faults,
                                   size_t faults_len, uint32_t flight_id, uint8_t *answer, size_t answer_len);

/* One ledger operation on the image, by its kind, address and value as above; a kind of 3 or more is Done, which asks nothing of the
 * device. `reply` and `keep` as in stipeflute_page_program; a failed erase alters nothing. No answer row.
 * Refused: 5, 17, 6 with the reply, after the kept bits of a program were stored. */
uint32_t stipeflute_start_mark_step(uint32_t capacity_bytes, uint8_t *image, size_t image_len, uint8_t kind, uint32_t address,
                                    uint8_t value, const uint8_t *keep, size_t keep_len, uint8_t reply);

/* ---- log sync: `is_recording` and `recording` are the flight being recorded, an Option */

/* Up to eight complete flights that no host has acknowledged, newest first, and whether a ninth exists.
 * answer, 98: count (u8) 0, more (flag) 1, then eight entries of 12 bytes from 2 on: flight_id, start_page, pages (u32 each); entries
 * from the count on are zeros. Refused: 5, 17, then 7 or 6 of the first read that has one. */
uint32_t stipeflute_unsynced_flights(uint32_t capacity_bytes, const uint8_t *image, size_t image_len, const uint8_t *faults,
                                     size_t faults_len, uint32_t used_pages, uint8_t is_recording, uint32_t recording,
                                     uint8_t *answer, size_t answer_len);

/* Whether erasing the log would lose nothing that a host has not stored.
 * answer, 1: a flag. Refused: 5, 17, then 7 or 6 of the first read that has one; nothing is read while a flight is recorded. */
uint32_t stipeflute_all_synced(uint32_t capacity_bytes, const uint8_t *image, size_t image_len, const uint8_t *faults,
                               size_t faults_len, uint32_t used_pages, uint8_t is_recording, uint32_t recording, uint8_t *answer,
                               size_t answer_len);

/* Whether a host's acknowledgement of a flight so many pages long may be recorded: it may where the reply is 0. No answer row.
 * Refused: 5, 17, 13, 12 (flight 0), 15, then what the search gives: 6, 7, 12, 14. */
uint32_t stipeflute_check_ack(uint32_t capacity_bytes, const uint8_t *image, size_t image_len, const uint8_t *faults, size_t faults_len,
                              uint32_t used_pages, uint8_t is_recording, uint32_t recording, uint32_t flight_id, uint32_t pages);

/* ---- lines */

/* The whole answer to `logs unsynced`: the first `count` of eight flights, `flights` being 96 bytes, 12 for each entry as in
 * stipeflute_unsynced_flights.
 * answer, 476: the length of the text (u32) 0, the text from 4 on, 0x00 behind it. Refused: 17 (also where flights is not 96 bytes or
 * the count is above 8). */
uint32_t stipeflute_unsynced_lines(const uint8_t *flights, size_t flights_len, uint32_t count, uint8_t more, uint8_t *answer,
                                   size_t answer_len);

/* The text that answers a refused acknowledgement, by the refusal's number (12 to 15); no text for any other number.
 * answer, 60: the length of the text (u32) 0, the text from 4 on, 0x00 behind it. Refused: 17. */
uint32_t stipeflute_ack_response(uint8_t number, uint8_t *answer, size_t answer_len);

/* ---- assembler */

/* What the last of a script's calls answers, played from a fresh assembler. A row of `script` has 54 bytes: call (u8) 0, flag (u8) 1,
 * flight (u32) 2, record 6. The calls: 1 start(flight, boot_session_start = flag), 2 push(record), 3 stop(), 4 take_ready_page(),
 * 5 unfinished_flight(page_pending = flag); 0 and any other recording(). A refused call leaves the assembler as the Rust does, and
 * the next is played.
 * answer, 261: flag 0: what push and stop say of a ready page, whether take_ready_page gives one, whether there is an unfinished flight,
 * whether a flight is recorded; the unfinished flight (u32) 1; the page that is taken 5; zeros where a call gives none of these, and for
 * a script of no rows. Refused: 17 (also where the script is no multiple of 54 bytes), then what the last call is refused: 9, 10, 11.
 * Stack: 8 KB. */
uint32_t stipeflute_assemble(const uint8_t *script, size_t script_len, uint8_t *answer, size_t answer_len);

/* ---- writer */

/* The writer's calls, played on the image by a script of rows of 288 bytes, from before the first power-on, with a fresh writer and an empty
 * queue. A row: its length, 288 (u16) 0; operation (u8) 2; what the program after those that succeed does (u8) 3: 0 busy, 1 fault, 2 cut;
 * armed 4, record_while_disarmed 5, writable or buffered 6 (flags, 0 or 1); a first number (u32) 8; a second (u32) 12; a record of 48 bytes or a
 * keep mask of 256 at 32. Every byte that an operation does not use is 0. The operations:
 *   0 a record is offered to the queue: record;
 *   1 drain: next, armed, record_while_disarmed, the pass's limit (first), the programs that succeed (second), mask;
 *   2 write_pending: next, the programs that succeed (second), mask;
 *   3 power comes on: a fresh writer set by one scan, an empty queue;
 *   4 recover: writable, next page (first), next flight (second);
 *   5 reset_after_erase;
 *   6 flush_write_back: buffered, the clock's low and high half (first, second).
 * `output` has 40 bytes for each row, written after its call: outcome (u8) 0: of an offer its refusal (0 or 16), of drain 1 if the power was
 * cut, of write_pending 0 Nothing, 1 Written, 2 RegionFull, 3 ProgramFailed, 4 power cut, of flush 1 if it flushes, else 0; writable 1, recording 2
 * (flags); whether a flight is unfinished 3 and whether a flush waits 4 (flags); the queue's length (u8) 5; pages_written 8, records_dropped 12,
 * write_faults 16, next page 20, next flight 24, the unfinished flight 28 (u32 each); the flush's start (u64) 32. The three counts are drain's
 * report, and 0 after any other call: that a write_pending wrote its page is told by its outcome and by the next page, and a failed one
 * counts no fault.
 * Refused: 5, 17 (a row that is malformed, or an output of another length); then image and output stay as they were.
 * Stack: 25 KB. */
uint32_t stipeflute_rig(uint32_t capacity_bytes, uint8_t *image, size_t image_len, const uint8_t *script, size_t script_len,
                        uint8_t *output, size_t output_len);

#ifdef __cplusplus
}
#endif

#endif
