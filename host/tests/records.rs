//! `records` on the sample images and on made dumps.

mod common;

use common::json::parsed;
use common::{answered, ask, dump, file, flights, page, refused, sample, tear, troubled};

const HEAD: &str = "page,sequence,index,timestamp_us,control_sequence,imu_sequence,flags,raw_gyro_dps10_0,raw_gyro_dps10_1,raw_gyro_dps10_2,\
                    filtered_gyro_dps10_0,filtered_gyro_dps10_1,filtered_gyro_dps10_2,command_dps10_0,command_dps10_1,command_dps10_2,\
                    pid_0,pid_1,pid_2,throttle,motors_0,motors_1,motors_2,motors_3";

#[test]
fn the_fields_of_each_record_in_order() {
    let image = dump(20_480, &[page(1, 0, 5), page(2, 0, 5), page(2, 1, 2)]);
    let path = file("two-flights", &image);
    let text = answered(&["records", &path, "2"]);
    let lines: Vec<_> = text.lines().collect();
    assert_eq!((lines[0], lines.len()), (HEAD, 8));
    assert_eq!(lines[1], "1,0,0,2000,0,0,1,0,0,0,0,0,0,0,0,0,-1,-32768,32767,0,1,2,3,65535");
    assert_eq!(lines[7], "2,1,1,2006,0,0,1,0,0,0,0,0,0,0,0,0,-1,-32768,32767,0,1,2,3,65535");
    let object = parsed(&answered(&["records", "--json", &path, "2"]));
    let rows = object.get("table").list();
    assert_eq!((rows.len(), rows[0].keys()), (7, HEAD.split(',').collect()));
    let values = |row: &common::json::Value| HEAD.split(',').map(|name| row.get(name).number().to_string()).collect::<Vec<_>>().join(",");
    assert_eq!(rows.iter().map(values).collect::<Vec<_>>(), lines[1..]);
}

#[test]
fn pages_that_do_not_decode_are_named_and_not_listed() {
    let answer = ask(&["records", &sample("example"), "1"]);
    assert_eq!((answer.status, answer.out.lines().count()), (0, 11));
    assert_eq!(answer.err, "stipeflute: 1 page of flight 1 not listed, since not decoded: 2\n");
    let answer = ask(&["records", "--json", &sample("example"), "1"]);
    assert_eq!(parsed(&answer.out).get("torn_pages").numbers(), [2]);
}

#[test]
fn what_is_not_there_is_refused() {
    let none = refused(&["records", &sample("full"), "3"], "12 NoSuchFlight");
    assert_eq!((none.out.as_str(), none.err.contains("no flight 3 in the first 16 log pages")), ("", true));
    assert!(refused(&["records", &sample("foreign"), "1"], "12 NoSuchFlight").err.contains("since the log is foreign"));
    refused(&["records", &sample("fresh"), "0"], "12 NoSuchFlight");
    refused(&["records", &sample("falling"), "1"], "7 Corrupt");
    let object = parsed(&refused(&["records", "--json", &sample("full"), "3"], "12 NoSuchFlight").out);
    assert_eq!((object.get("refused").get("number").number(), object.get("table").list().len()), (12, 0));
    assert_eq!((object.get("capacity_bytes").number(), object.get("scan").get("next_page").number()), (20_480, 16));
}

#[test]
fn a_flight_is_a_number() {
    for words in [vec!["records"], vec!["records", "x"]] {
        assert!(troubled(&words).contains("a DUMP and a FLIGHT are needed"));
    }
    for number in ["", "x", "-1", "1.5", "4294967296", "+1", " 1"] {
        let text = troubled(&["records", &sample("full"), "--", number]);
        assert!(text.contains("FLIGHT is a number from 0 to 4294967295"), "{text}");
    }
}

#[test]
fn a_flight_of_sixteen_mebibytes() {
    let mut image = flights(1 << 24, 2, 65_472);
    tear(&mut image, 40_000);
    let answer = ask(&["records", &file("two-long", &image), "2"]);
    assert_eq!((answer.status, answer.out.lines().count()), (0, 1 + 5 * (32_736 - 1)));
    assert_eq!(answer.err, "stipeflute: 1 page of flight 2 not listed, since not decoded: 40000\n");
}
