//! `explain` on the sample images and on made dumps, in words and as JSON.

mod common;

use common::json::{Value, parsed};
use common::{SAMPLES, answered, dump, file, page, refused, sample};

#[test]
fn a_foreign_sample_in_words() {
    let path = sample("foreign");
    let expected = format!(
        "dump      {path}
why       The last two used pages, 2 and 3, do not decode.
          Page 2 is refused 2 InvalidMagic: bytes 240, 241 are not \"FB\".
          Page 3 is refused 2 InvalidMagic: bytes 240, 241 are not \"FB\".
means     The scan says foreign: a board that powers on with this log writes nothing to it,
          and no flight is listed. Whole pages still hold their records. Where only the proved
          writer wrote the log since an erase, a used page that does not decode is what a program
          left that was cut or that failed (docs/WHAT-THE-LOG-CAN-LOSE.md).
do        1. Read out the whole flash, and keep the dump.
          2. Salvage: `./stipeflute pages` lists every page of the dump, with its flight and its records.
          3. Only then may the log be erased: an erase takes the whole pages with it.
"
    );
    assert_eq!(answered(&["explain", &path]), expected);
}

#[test]
fn an_erase_is_never_the_first_thing_to_do() {
    for name in SAMPLES {
        let text = answered(&["explain", &sample(name)]);
        let first = text.split("\ndo        ").nth(1).unwrap().lines().next().unwrap();
        assert!(first == "Nothing." || first == "1. Read out the whole flash, and keep the dump.", "{name}: {first}");
    }
}

/// The reason's name, and each page with its refusal's number.
fn reason(path: &str) -> (String, Vec<(i64, i64)>) {
    let object = parsed(&answered(&["explain", "--json", path]));
    let reason = object.get("scan").get("reason").clone();
    let pages = reason.get("pages").list().iter();
    let pages = pages.map(|page| (page.get("page").number(), page.get("refused").get("number").number()));
    let Value::Text(name) = reason.get("name") else { panic!("a name is a text") };
    (name.clone(), pages.collect())
}

#[test]
fn each_reason_as_json() {
    let torn = [0; 256];
    let mut newer = page(1, 0, 5);
    newer[242] = 2;
    for (name, pages, expected) in [
        ("nothing", vec![page(1, 0, 5), torn], ("Nothing", vec![])),
        ("first", vec![newer, torn, torn], ("FirstTorn", vec![(0, 3)])),
        ("last", vec![page(1, 0, 5), newer, torn], ("LastTorn", vec![(1, 3), (2, 2)])),
        ("full", vec![page(1, 0, 5); 16], ("Full", vec![])),
    ] {
        let path = file(&format!("explain-{name}"), &dump(20_480, &pages));
        assert_eq!(reason(&path), (expected.0.to_string(), expected.1), "{name}");
    }
}

#[test]
fn a_length_that_is_no_capacity_is_refused_5() {
    refused(&["explain", &file("explain-short", &[0xff; 20_481])], "5 InvalidLayout");
}
