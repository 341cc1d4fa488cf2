//! `show` on the sample images and on made dumps, in words and as JSON.

mod common;

use common::json::{Value, parsed};
use common::{SAMPLES, acknowledge, answered, ask, dump, file, flights, page, refused, root, sample, tear};

fn rows(object: &Value, names: &[&str]) -> Vec<Vec<i64>> {
    object.get("table").list().iter().map(|row| names.iter().map(|name| row.get(name).number()).collect()).collect()
}

#[test]
fn the_scope_documents_example_in_words() {
    let path = sample("example");
    let expected = format!(
        "dump      {path}
capacity  20,480 bytes: 16 log pages of 256 bytes
scan      next page 4, next flight 3, writable
          Used: pages 0 to 3. Page 4 is blank.
pages     3 whole, 12 blank, 1 neither
ledger    Blank: it acknowledges no flight
flights   2, of which 0 acknowledged; 15 records in their whole pages

flight  start  pages  records  torn  acknowledged
     1      0      3       10     1  no
     2      3      1        5     0  no

torn      1 page: 2
"
    );
    assert_eq!(answered(&["show", &path]), expected);
}

/// The numbers of each sample's census, by name.
fn censuses() -> Vec<(String, Vec<Vec<i64>>)> {
    let text = std::fs::read_to_string(root().join("crates/run_samples/stdout")).unwrap();
    let parts = text.split("sample ").skip(1).map(|part| part.split("noise of").next().unwrap());
    let numbers = |line: &str| line.split(' ').filter_map(|word| word.parse().ok()).collect();
    parts.map(|part| (part.split(' ').next().unwrap().to_string(), part.lines().skip(1).map(numbers).collect())).collect()
}

#[test]
fn scan_flights_and_torn_pages_are_the_censuss() {
    let censuses = censuses();
    assert_eq!(censuses.iter().map(|(name, _)| name.as_str()).collect::<Vec<_>>().len(), SAMPLES.len());
    for (name, lines) in censuses {
        let answer = ask(&["show", "--json", &sample(&name)]);
        let object = parsed(&answer.out);
        if lines == [[7]] {
            assert_eq!((answer.status, object.get("refused").get("number").number()), (1, 7), "{name}");
            assert_eq!(object.get("table").list(), []);
            continue;
        }
        assert_eq!((answer.status, object.get("refused")), (0, &Value::Null), "{name}");
        let scan = object.get("scan");
        let writable = i64::from(*scan.get("writable") == Value::Bool(true));
        assert_eq!(lines[0], [scan.get("next_page").number(), scan.get("next_flight").number(), writable], "{name}");
        let found = rows(&object, &["flight", "start_page", "pages", "records"]);
        let count = lines[1][0] as usize;
        assert_eq!(lines[2..2 + count], found, "{name}");
        let torn: Vec<_> = lines[3 + count..].iter().map(|line| line[0]).collect();
        assert_eq!(torn, object.get("torn_pages").numbers(), "{name}");
    }
}

#[test]
fn a_foreign_log_is_answered_and_lists_no_flight() {
    let text = answered(&["show", &sample("foreign")]);
    assert!(text.contains("scan      next page 0, next flight 1, not writable: the log is foreign\n"));
    assert!(text.contains("pages     2 whole, 12 blank, 2 neither\n"));
    assert!(!text.contains("flights ") && !text.contains("torn "));
}

#[test]
fn falling_flights_and_a_page_without_one_are_refused_7() {
    let falling = refused(&["show", &sample("falling")], "7 Corrupt");
    assert!(falling.err.contains("flights fall at log page 2, from 2 to 1"));
    assert!(falling.out.contains("scan      next page 3, next flight 2, writable\n") && !falling.out.contains("acknowledged"));
    let mut image = dump(20_480, &[page(1, 0, 5), page(1, 1, 5), page(1, 2, 5), page(1, 3, 5)]);
    tear(&mut image, 1);
    tear(&mut image, 2);
    let none = refused(&["show", &file("no-flight", &image)], "7 Corrupt");
    assert!(none.err.contains("log page 2 is used and has no flight") && none.out.contains("torn      2 pages: 1 to 2\n"));
}

#[test]
fn short_pages_count_what_they_hold_and_flights_without_a_bit_are_told() {
    let image = dump(20_480, &[page(0, 0, 5), page(3, 0, 2), page(40_000, 0, 0), page(u32::MAX, 0, 1)]);
    let path = file("short", &image);
    let object = parsed(&answered(&["show", "--json", &path]));
    let expected = [[0, 0, 1, 5, 0], [3, 1, 1, 2, 0], [40_000, 2, 1, 0, 0], [4_294_967_295, 3, 1, 1, 0]];
    assert_eq!(rows(&object, &["flight", "start_page", "pages", "records", "torn"]), expected);
    let acknowledged: Vec<_> = object.get("table").list().iter().map(|row| row.get("acknowledged").clone()).collect();
    assert_eq!(acknowledged, [Value::Null, Value::Bool(false), Value::Null, Value::Null]);
    assert!(answered(&["show", &path]).contains("\n- is refused 8 OutOfRange: "));
}

#[test]
fn the_ledgers_header_is_told() {
    let mut image = dump(20_480, &[page(1, 0, 5), page(2, 0, 5)]);
    assert!(answered(&["show", &file("blank-ledger", &image)]).contains("\nledger    Blank: "));
    image[16_384] = 0;
    assert!(answered(&["show", &file("foreign-ledger", &image)]).contains("\nledger    Foreign: "));
    acknowledge(&mut image, 2);
    let text = answered(&["show", &file("valid-ledger", &image)]);
    assert!(text.contains("\nledger    Valid\nflights   2, of which 1 acknowledged; 10 records"));
    assert!(text.contains("     1      0      1        5     0  no\n     2      1      1        5     0  yes\n"));
}

#[test]
fn pages_that_the_halving_does_not_see_are_told() {
    let mut image = dump(20_480, &[]);
    image[12_288 + 256 * 5..][..256].copy_from_slice(&page(1, 0, 5));
    let text = answered(&["show", &file("unseen", &image)]);
    assert!(
        text.contains(
            "scan      next page 0, next flight 1, writable\n          No page is used.\npages     1 whole, 15 blank, 0 neither\n"
        )
    );
    assert!(text.ends_with(
        "flights   none\ntorn      none among the used pages\nbeyond    not blank, though behind the scan's next page: 1 page: 5\n"
    ));
}

#[test]
fn a_mebibyte_of_37_flights() {
    let mut image = flights(1 << 20, 37, 3_000);
    tear(&mut image, 2_999);
    acknowledge(&mut image, 37);
    let object = parsed(&answered(&["show", "--json", &file("mebibyte", &image)]));
    assert_eq!(object.get("log_page_count").number(), 4_032);
    let rows = rows(&object, &["flight", "start_page", "pages", "records", "torn"]);
    assert_eq!((rows.len(), &rows[0], &rows[36]), (37, &vec![1, 0, 81, 405, 0], &vec![37, 2_916, 84, 415, 1]));
    assert_eq!(object.get("torn_pages").numbers(), [2_999]);
}

#[test]
fn sixteen_mebibytes_of_a_thousand_flights() {
    let mut image = flights(1 << 24, 1_000, 65_472);
    let torn: Vec<usize> = (0..40).map(|at| at * 1_637 + 7).collect();
    for &index in &torn {
        tear(&mut image, index);
    }
    for flight in [1, 500, 1_000] {
        acknowledge(&mut image, flight);
    }
    let path = file("thousand", &image);
    let object = parsed(&answered(&["show", "--json", &path]));
    assert_eq!(object.get("torn_pages").numbers(), torn.iter().map(|&index| index as i64).collect::<Vec<_>>());
    let rows = rows(&object, &["flight", "start_page", "pages", "records", "torn"]);
    assert_eq!((rows.len(), rows[0].clone(), rows[999].clone()), (1_000, vec![1, 0, 65, 320, 1], vec![1_000, 64_935, 537, 2_685, 0]));
    assert_eq!(rows.iter().map(|row| row[2]).sum::<i64>(), 65_472);
    assert_eq!(rows.iter().map(|row| row[3]).sum::<i64>(), 5 * (65_472 - 40));
    let words = answered(&["show", &path]);
    assert!(words.contains("scan      next page 65472, next flight 1001, not writable\n"));
    assert!(words.contains("flights   1000, of which 3 acknowledged; 327,160 records in their whole pages\n"));
    assert_eq!(std::fs::read(&path).unwrap(), image);
}

#[test]
fn without_a_dump_the_sample_is_shown_as_the_readme_says() {
    let text = answered(&["show"]);
    let readme = std::fs::read_to_string(root().join("README.md")).unwrap();
    assert!(readme.contains(&format!("```\n{text}```\n")), "README.md shows another text than\n{text}");
}
