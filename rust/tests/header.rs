//! The declarations of src/ffi.rs are those of include/stipeflute.h: the same calls, in the same order, each with the same parameters.

use std::{fs, path::Path};

/// A call: its name, and the type and name of each parameter.
type Call = (String, Vec<(String, String)>);

fn text(path: &str) -> String {
    fs::read_to_string(Path::new(env!("CARGO_MANIFEST_DIR")).join(path)).unwrap()
}

/// The names and parameter lists of what is declared between a word before each name and its closing parenthesis.
fn declared(text: &str, before: &str, parameter: impl Fn(&str) -> (String, String)) -> Vec<Call> {
    let mut calls = Vec::new();
    for part in text.split(before).skip(1) {
        let (name, rest) = part.split_once('(').unwrap();
        let (list, _) = rest.split_once(')').unwrap();
        let list = list.split(',').map(str::trim).filter(|parameter| !parameter.is_empty());
        calls.push((name.to_string(), list.map(&parameter).collect()));
    }
    calls
}

fn in_header(parameter: &str) -> (String, String) {
    let (kind, name) = parameter.rsplit_once([' ', '*']).unwrap();
    let kind = match (kind.split_whitespace().next().unwrap(), parameter.contains('*')) {
        ("const", true) => "*const u8",
        ("uint8_t", true) => "*mut u8",
        ("uint8_t", false) => "u8",
        ("uint16_t", false) => "u16",
        ("uint32_t", false) => "u32",
        ("int16_t", false) => "i16",
        ("size_t", false) => "usize",
        other => panic!("{other:?} in {parameter}"),
    };
    (kind.to_string(), name.to_string())
}

fn in_rust(parameter: &str) -> (String, String) {
    let (name, kind) = parameter.split_once(": ").unwrap();
    (kind.to_string(), name.to_string())
}

#[test]
fn declarations_agree() {
    let header = declared(&text("../include/stipeflute.h"), "\nuint32_t ", in_header);
    let rust = declared(&text("src/ffi.rs"), "\n    pub fn ", in_rust);
    assert_eq!(header.len(), 32);
    assert_eq!(header, rust);
}
