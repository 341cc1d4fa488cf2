//! Help, standard input, bad input and closed pipes: no input ends in a panic or in a wrong status.

mod common;

use std::io::Read;
use std::process::Stdio;

use common::json::{Value, parsed};
use common::{answered, ask, ask_with, file, program, refused, root, sample, troubled};

const COMMANDS: [&str; 4] = ["show", "pages", "records", "draw"];

/// A command with a dump, and the flight that `records` needs.
fn words<'a>(command: &'a str, dump: &'a str) -> Vec<&'a str> {
    if command == "records" { vec![command, dump, "1"] } else { vec![command, dump] }
}

#[test]
fn help_has_an_example_that_works() {
    for command in COMMANDS {
        let help = answered(&[command, "--help"]);
        assert_eq!(answered(&[command, "x", "y", "-h"]), help);
        assert!(help.starts_with(&format!("usage: ./stipeflute {command} ")));
        let example = help.lines().last().unwrap().strip_prefix("Example: ./stipeflute ").unwrap();
        let path = root().join("host/samples/brown_out");
        let example = example.split(" > ").next().unwrap().replace("host/samples/brown_out", path.to_str().unwrap());
        assert!(!answered(&example.split(' ').collect::<Vec<_>>()).is_empty());
    }
    let help = answered(&["--help"]);
    assert!(COMMANDS.iter().all(|command| help.contains(&format!("./stipeflute {command} "))));
    assert_eq!((answered(&[]), answered(&["help"])), (help.clone(), help));
}

#[test]
fn standard_input_is_read_as_a_file_is() {
    for name in ["example", "hole", "foreign"] {
        let image = std::fs::read(sample(name)).unwrap();
        for command in ["show", "pages", "draw"] {
            let (path, input) = (answered(&[command, &sample(name)]), ask_with(&[command, "-"], &image));
            assert_eq!((input.status, input.out), (0, path.replace(&sample(name), "standard input")));
        }
    }
}

#[test]
fn lengths_that_are_no_capacity_are_refused_5_with_the_nearest() {
    let cases =
        [(0, "20,480"), (1, "20,480"), (16_384, "20,480"), (20_481, "20,480"), (22_528, "20,480 and 24,576"), (16_777_217, "16,777,216")];
    for (len, nearest) in cases {
        let image = vec![0xff; len];
        let path = file(&format!("length-{len}"), &image);
        for command in COMMANDS {
            let answer = refused(&words(command, &path), "5 InvalidLayout");
            assert_eq!(answer.out, "");
            assert!(answer.err.contains("capacities are the multiples of 4,096 from 20,480 to 16,777,216"));
            assert!(answer.err.trim_end().ends_with(&format!(" {nearest}")), "{}", answer.err);
        }
        let input = ask_with(&["show", "-"], &image);
        assert_eq!((input.status, input.out.as_str()), (1, ""));
    }
}

#[test]
fn a_refused_dump_has_the_same_shape_in_json() {
    let path = file("json-refused", &[0; 5]);
    let good = parsed(&answered(&["show", "--json"]));
    for command in ["show", "pages", "records"] {
        let mut words = words(command, &path);
        words.push("--json");
        let object = parsed(&refused(&words, "5 InvalidLayout").out);
        assert_eq!(object.keys(), good.keys());
        assert_eq!((object.get("command").text(), object.get("dump").text()), (command, path.as_str()));
        assert_eq!((object.get("scan"), object.get("refused").get("number").number()), (&Value::Null, 5));
    }
}

#[test]
fn files_that_cannot_be_read_are_trouble() {
    let folder = env!("CARGO_TARGET_TMPDIR");
    // root reads what its mode forbids, but nobody reads the memory at address 0
    for (path, why) in
        [("/no/such/dump", "cannot read"), (folder, "a folder, not a dump"), ("/proc/self/mem", "cannot read"), ("", "cannot read")]
    {
        for command in COMMANDS {
            assert!(troubled(&words(command, path)).contains(why), "{path}");
        }
    }
}

#[cfg(unix)]
#[test]
fn a_file_without_the_right_to_read_is_trouble() {
    use std::os::unix::fs::PermissionsExt;
    let path = file("forbidden", &[0xff; 20_480]);
    std::fs::set_permissions(&path, std::fs::Permissions::from_mode(0o000)).unwrap();
    match std::fs::File::open(&path) {
        Err(_) => assert!(troubled(&["show", &path]).contains("cannot read")),
        Ok(_) => assert!(answered(&["show", &path]).contains("20,480 bytes"), "root may read it"),
    }
    std::fs::set_permissions(&path, std::fs::Permissions::from_mode(0o600)).unwrap();
}

/// s -> (75 s + 74) mod 65,537, low bytes.
fn noise(len: usize, seed: u32) -> Vec<u8> {
    let mut s = seed;
    let next = || {
        s = (75 * s + 74) % 65_537;
        s as u8
    };
    std::iter::repeat_with(next).take(len).collect()
}

#[test]
fn noise_of_every_size_is_answered_or_refused() {
    for (len, seed) in [(20_480, 1), (20_480, 2), (61_440, 3), (1 << 20, 4), (1 << 24, 5), (20_479, 6), ((1 << 24) + 1, 7)] {
        let path = file(&format!("noise-{len}-{seed}"), &noise(len, seed));
        for command in COMMANDS {
            let answer = ask(&words(command, &path));
            assert!(
                answer.status == 0 || answer.status == 1 && answer.err.starts_with("stipeflute: refused "),
                "{command} {len}: {}",
                answer.err
            );
        }
    }
}

#[test]
fn words_that_are_wrong_are_trouble() {
    let path = sample("example");
    for words in [
        vec!["nothing"],
        vec!["show", &path, &path],
        vec!["show", "--all"],
        vec!["show", "-x"],
        vec!["draw", "--json"],
        vec!["pages", &path, "x"],
        vec!["pages", &path, "1", "2", "3"],
        vec!["records", &path, "1", "2"],
        vec!["pages", "--", "--json"],
    ] {
        troubled(&words);
    }
}

#[test]
fn no_colour_stands_in_what_is_no_terminal() {
    for words in [vec!["show"], vec!["pages"]] {
        assert!(!answered(&words).contains('\x1b'));
    }
}

#[test]
fn a_reader_that_stops_is_no_fault() {
    let mut child =
        program().args(["pages", &file("long", &vec![0xff; 1 << 24])]).stdout(Stdio::piped()).stderr(Stdio::piped()).spawn().unwrap();
    let mut first = [0; 4];
    child.stdout.take().unwrap().read_exact(&mut first).unwrap();
    let ended = child.wait_with_output().unwrap();
    assert_eq!((&first, ended.status.code(), ended.stderr.as_slice()), (b" pag", Some(0), &b""[..]));
}

#[test]
fn output_that_cannot_be_written_is_trouble() {
    let full = std::fs::OpenOptions::new().write(true).open("/dev/full").unwrap();
    let ended = program().arg("show").stdout(full).stderr(Stdio::piped()).output().unwrap();
    assert_eq!(ended.status.code(), Some(2));
    assert!(String::from_utf8(ended.stderr).unwrap().starts_with("stipeflute: cannot write to standard output: "));
}
