//! `pages` on the sample images and on made dumps.

mod common;

use common::json::{Value, parsed};
use common::{answered, dump, file, flights, page, refused, sample, tear, troubled};

#[test]
fn the_scope_documents_example_page_by_page() {
    let expected = "\
page  address  state  flight  sequence  records  note
   1    12544  whole       1         1        5
   2    12800  torn        -         -        -  refused 2 InvalidMagic: bytes 240, 241 are not \"FB\"; counts with flight 1
   3    13056  whole       2         0        5
   4    13312  blank       -         -        -  the scan's next page
   5    13568  blank       -         -        -
";
    assert_eq!(answered(&["pages", &sample("example"), "1", "5"]), expected);
}

#[test]
fn each_reason_why_a_page_does_not_decode_is_told() {
    let whole = page(1, 0, 5);
    let with = |at: usize, byte: u8| {
        let mut page = whole;
        page[at] = byte;
        page
    };
    let pages = [whole, with(240, 0), whole, with(242, 2), whole, with(243, 6), whole, with(0, !whole[0])];
    let object = parsed(&answered(&["pages", "--json", &file("reasons", &dump(20_480, &pages))]));
    let row = |index: usize| &object.get("table").list()[index];
    let expected = [(1, 2, "InvalidMagic"), (3, 3, "UnsupportedVersion"), (5, 1, "InvalidRecordCount"), (7, 4, "CrcMismatch")];
    for (index, number, name) in expected {
        let refused = row(index).get("refused");
        assert_eq!((refused.get("number").number(), refused.get("name").text()), (number, name));
        assert_eq!((row(index).get("state").text(), row(index).get("counts_with").number()), ("torn", 1));
        assert_eq!(row(index).get("flight"), &Value::Null);
    }
    assert_eq!((row(0).get("state").text(), row(0).get("refused"), row(0).get("records").number()), ("whole", &Value::Null, 5));
    assert_eq!((row(8).get("state").text(), row(8).get("used"), row(8).get("counts_with")), ("blank", &Value::Bool(false), &Value::Null));
    assert_eq!(object.get("torn_pages").numbers(), [1, 3, 5, 7]);
}

#[test]
fn a_foreign_log_is_listed_whole() {
    let text = answered(&["pages", &sample("foreign")]);
    assert_eq!(text.lines().count(), 17);
    assert!(text.contains("   0    12288  whole       1         0        5\n"));
    assert!(text.contains("   3    13056  torn        -         -        -  refused 2 InvalidMagic"));
    assert!(!text.contains("next page") && !text.contains("counts with"));
}

#[test]
fn a_hole_is_blank_and_counts_as_torn() {
    let text = answered(&["pages", &sample("hole"), "3", "3"]);
    assert!(text.ends_with(
        "   3    13056  blank       -         -        -  blank below the scan's next page, and so torn; counts with flight 1\n"
    ));
    let object = parsed(&answered(&["pages", "--json", &sample("hole")]));
    assert_eq!(object.get("torn_pages").numbers(), [3]);
}

#[test]
fn ranges() {
    let path = sample("full");
    let listed = |words: &[&str]| answered(words).lines().count() - 1;
    assert_eq!(listed(&["pages", &path]), 16);
    assert_eq!(listed(&["pages", &path, "9"]), 7);
    assert_eq!(listed(&["pages", &path, "9", "9"]), 1);
    assert!(troubled(&["pages", &path, "9", "8"]).contains("TO is below FROM"));
    for words in [vec!["pages", &path, "16"], vec!["pages", &path, "0", "16"], vec!["pages", &path, "4294967295"]] {
        assert!(refused(&words, "7 Corrupt").err.contains("lies past the log, whose last page is 15"));
    }
}

#[test]
fn a_refused_range_has_its_log_in_json() {
    let object = parsed(&refused(&["pages", "--json", &sample("full"), "16"], "7 Corrupt").out);
    assert_eq!((object.get("refused").get("number").number(), object.get("log_page_count").number()), (7, 16));
    assert_eq!(object.get("table").list(), []);
}

#[test]
fn every_page_of_sixteen_mebibytes() {
    let mut image = flights(1 << 24, 7, 60_000);
    tear(&mut image, 59_999);
    let path = file("seven", &image);
    let text = answered(&["pages", &path]);
    assert_eq!(text.lines().count(), 65_473);
    assert_eq!(text.lines().last(), Some("65471  16772864  blank       -         -        -"));
    let object = parsed(&answered(&["pages", "--json", &path, "59998", "60000"]));
    let states: Vec<_> = object.get("table").list().iter().map(|row| row.get("state").text()).collect();
    assert_eq!(states, ["whole", "torn", "blank"]);
    assert_eq!(object.get("torn_pages").numbers(), [59_999]);
}
