//! What the script `./stipeflute` answers without building anything: help, and files that cannot be read.

mod common;

use std::process::{Command, Output};

use common::root;

fn script(words: &[&str]) -> Output {
    Command::new(root().join("stipeflute")).args(words).output().expect("the script starts")
}

/// Status 2, nothing on standard output, and one line.
fn troubled(words: &[&str]) -> String {
    let ended = script(words);
    let err = String::from_utf8(ended.stderr).unwrap();
    assert_eq!((ended.status.code(), ended.stdout.as_slice()), (Some(2), &b""[..]), "{words:?}: {err}");
    assert!(err.starts_with("stipeflute: ") && err.lines().count() == 1, "{words:?}: {err}");
    err
}

#[test]
fn help_needs_no_build() {
    for (words, file) in [
        (vec!["help"], "help.txt"),
        (vec!["--help"], "help.txt"),
        (vec!["show", "--help"], "help/show.txt"),
        (vec!["draw", "x", "-h"], "help/draw.txt"),
    ] {
        let ended = script(&words);
        let text = std::fs::read(root().join("host/src").join(file)).unwrap();
        assert_eq!((ended.status.code(), ended.stdout == text, ended.stderr.as_slice()), (Some(0), true, &b""[..]), "{words:?}");
    }
    let census = script(&["census", "--help"]);
    assert_eq!(census.status.code(), Some(0));
    assert!(census.stdout.starts_with(b"usage: ./stipeflute census [IMAGE]\n"));
    let none = script(&[]);
    assert_eq!((none.status.code(), none.stdout.len()), (Some(2), 0));
}

#[test]
fn every_command_has_its_help_where_the_script_looks() {
    for entry in std::fs::read_dir(root().join("host/src/help")).unwrap() {
        let name = entry.unwrap().file_name().into_string().unwrap();
        let command = name.strip_suffix(".txt").unwrap();
        assert_eq!(common::answered(&[command, "--help"]).as_bytes(), script(&[command, "--help"]).stdout);
    }
}

#[test]
fn what_is_no_command_is_trouble() {
    for word in ["nothing", "", "../show", "Show", "help.txt"] {
        assert!(troubled(&[word]).contains("no command"));
    }
}

#[test]
fn a_census_of_what_cannot_be_read_is_trouble() {
    assert!(troubled(&["census", "/no/such/image"]).contains("no such file"));
    assert!(troubled(&["census", env!("CARGO_TARGET_TMPDIR")]).contains("a folder, not an image"));
    assert!(troubled(&["census", "/proc/self/mem"]).contains("cannot read"));
    assert!(troubled(&["census", "--all"]).contains("no option --all"));
    assert!(troubled(&["census", "a", "b"]).contains("one IMAGE at most"));
}
