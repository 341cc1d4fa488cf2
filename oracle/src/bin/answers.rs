//! `answers LIST` prints the Rust's own answers to a recorded list.

use oracle::compare::Run;
use oracle::lists;

fn main() {
    let list = std::env::args().nth(1).expect("usage: answers LIST");
    lists::answer(&mut Run::new(1), &list).iter().for_each(|answer| println!("{answer}"));
}
