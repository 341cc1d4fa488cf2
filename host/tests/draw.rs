//! `draw`: its SVG is parsed, and every page stands in it once.

mod common;

use common::xml::{Element, parsed};
use common::{SAMPLES, answered, dump, file, flights, page, root, sample, tear};

const WIDTH: usize = 1_024;

fn drawn(words: &[&str]) -> Element {
    parsed(&answered(words))
}

/// How many pages the boxes of a class cover, with so many pages in a row.
fn covered(svg: &Element, class: &str, columns: usize) -> usize {
    svg.of_class(class).iter().map(|element| element.number("width") * columns / WIDTH).sum()
}

/// Each page is covered by one box, and no box leaves its row.
fn cover_the_log(svg: &Element, pages: usize, columns: usize) {
    let cell = WIDTH / columns;
    let mut seen = vec![0; pages];
    let boxes = ["flight", "torn", "blank", "hole"].map(|class| svg.of_class(class)).concat();
    let heights: Vec<_> = boxes.iter().map(|element| element.number("height")).collect();
    let row = heights[0] + 2;
    for element in boxes {
        let (x, y, width) = (element.number("x"), element.number("y"), element.number("width"));
        assert!(x + width <= WIDTH && x % cell == 0 && width % cell == 0 && y % row == 0);
        for page in 0..width / cell {
            seen[y / row * columns + x / cell + page] += 1;
        }
    }
    assert!(seen.iter().all(|&count| count == 1));
}

/// The boxes beside the flights that are listed; the key has the first five.
fn listed(svg: &Element) -> Vec<&Element> {
    svg.of_class("key").split_off(5)
}

fn numbers(svg: &Element) -> Vec<&str> {
    svg.of_class("number").iter().map(|element| element.text.as_str()).collect()
}

#[test]
fn sixteen_pages() {
    for name in SAMPLES {
        cover_the_log(&drawn(&["draw", &sample(name)]), 16, 16);
    }
    let svg = drawn(&["draw", &sample("example")]);
    assert_eq!(["flight", "torn", "blank", "hole"].map(|class| covered(&svg, class, 16)), [3, 1, 12, 0]);
    assert_eq!(numbers(&svg), ["1", "2"]);
    let next = svg.of_class("next");
    assert_eq!((next.len(), next[0].number("x")), (1, 4 * 64));
    let svg = drawn(&["draw", &sample("hole")]);
    assert_eq!(["flight", "hole"].map(|class| covered(&svg, class, 16)), [15, 1]);
    assert_eq!(svg.of_class("next").len(), 0);
}

#[test]
fn a_foreign_and_a_falling_log_are_drawn_by_their_pages() {
    let words = |svg: &Element| svg.all().iter().map(|element| element.text.clone()).collect::<Vec<_>>().join("\n");
    let svg = drawn(&["draw", &sample("foreign")]);
    assert_eq!(["flight", "torn", "blank"].map(|class| covered(&svg, class, 16)), [2, 2, 12]);
    assert!(words(&svg).contains("the log is foreign") && svg.of_class("next").is_empty() && listed(&svg).is_empty());
    let svg = drawn(&["draw", &sample("falling")]);
    assert!(words(&svg).contains("Flights refused 7 Corrupt: flights fall at log page 2") && listed(&svg).is_empty());
    assert_eq!(numbers(&svg), ["2", "1"]);
}

#[test]
fn a_mebibyte_has_a_colour_and_a_number_for_each_flight() {
    let mut image = flights(1 << 20, 37, 3_000);
    tear(&mut image, 1_500);
    let svg = drawn(&["draw", &file("draw-mebibyte", &image)]);
    cover_the_log(&svg, 4_032, 128);
    assert_eq!(["flight", "torn", "blank"].map(|class| covered(&svg, class, 128)), [2_999, 1, 1_032]);
    let listed = listed(&svg);
    let mut colours: Vec<_> = listed.iter().map(|element| element.get("fill")).collect();
    colours.sort();
    colours.dedup();
    assert_eq!((listed.len(), colours.len()), (37, 37));
    assert_eq!(numbers(&svg), (1..=37).map(|flight| flight.to_string()).collect::<Vec<_>>());
}

#[test]
fn sixteen_mebibytes_of_a_thousand_flights() {
    let mut image = flights(1 << 24, 1_000, 65_000);
    tear(&mut image, 30_000);
    let svg = drawn(&["draw", &file("draw-thousand", &image)]);
    cover_the_log(&svg, 65_472, 256);
    assert_eq!(["flight", "torn", "blank"].map(|class| covered(&svg, class, 256)), [64_999, 1, 472]);
    assert_eq!(numbers(&svg), (1..=1_000).map(|flight| flight.to_string()).collect::<Vec<_>>());
    assert!(svg.all().iter().any(|element| element.name == "text" && element.text == "\u{25c0} next page 65000"));
}

#[test]
fn many_runs_and_marks_in_a_name() {
    let pages: Vec<_> = (0..4_000).map(|at| if at % 2 == 0 { page(at + 1, 0, 1) } else { [0; 256] }).collect();
    let svg = drawn(&["draw", &file("a <&\"'> b", &dump(1 << 20, &pages))]);
    cover_the_log(&svg, 4_032, 128);
    assert!(svg.all().iter().any(|element| element.text.contains("a <&\"'> b: 1,048,576 bytes, 4,032 log pages")));
}

#[test]
fn the_picture_in_docs_is_the_samples() {
    let kept = std::fs::read_to_string(root().join("docs/log.svg")).unwrap();
    assert!(answered(&["draw"]) == kept, "docs/log.svg is not what `draw` prints");
}
