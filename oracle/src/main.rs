//! `oracle --images N --lives N --seed N` compares every export with the Rust and ends with 'no difference' and exit status 0, or at the
//! first difference with its recipe and exit status 1. `--only KIND --index I` makes one input of a recipe again.

use oracle::compare::Run;
use oracle::kinds;
use oracle::life::Board;

struct Asked {
    images: u64,
    lives: u64,
    seed: u64,
    only: Option<String>,
    index: u64,
    make_list: bool,
    answers: Option<String>,
}

fn arguments() -> Asked {
    let mut asked = Asked { images: 1000, lives: 200, seed: 1, only: None, index: 0, make_list: false, answers: None };
    let mut words = std::env::args().skip(1);
    while let Some(word) = words.next() {
        if word == "--make-list" {
            asked.make_list = true;
            continue;
        }
        let Some(value) = words.next() else { usage(&word) };
        let number = || value.parse().unwrap_or_else(|_| usage(&value));
        match word.as_str() {
            "--images" => asked.images = number(),
            "--lives" => asked.lives = number(),
            "--seed" => asked.seed = number(),
            "--index" => asked.index = number(),
            "--only" => asked.only = Some(value),
            "--answers" => asked.answers = Some(value),
            _ => usage(&word),
        }
    }
    asked
}

fn usage(word: &str) -> ! {
    eprintln!("oracle: {word}?");
    eprintln!("usage: oracle [--images N] [--lives N] [--seed N]");
    eprintln!("       oracle --only KIND --index N [--seed N]");
    eprintln!("       oracle --make-list [--images N] [--lives N] [--seed N]");
    eprintln!("       oracle --answers LIST");
    std::process::exit(2);
}

fn one(run: &mut Run, board: &mut Board, kind: &str, index: u64) {
    match kind {
        "codec" => kinds::codec(run, index),
        "numbers" => kinds::numbers(run, index),
        "lines" => kinds::lines(run, index),
        "assembler" => kinds::assembler(run, index),
        "store" => kinds::store(run, index),
        "images" => kinds::image(run, index),
        "large" => kinds::large(run, index),
        "patterns" => kinds::pattern(run, index),
        "exhaustive" => kinds::exhaustive(run),
        "lives" => kinds::life(run, board, index),
        "no_scripts" => kinds::no_script(run, board, index),
        _ => usage(kind),
    }
}

fn main() {
    let asked = arguments();
    let mut run = Run::new(asked.seed);
    let mut board = Board::new();
    if asked.make_list {
        oracle::lists::make(asked.seed, asked.images, asked.lives).iter().for_each(|line| println!("{line}"));
        return;
    }
    if let Some(list) = asked.answers {
        oracle::lists::answer(&mut run, &list).iter().for_each(|answer| println!("{answer}"));
        return;
    }
    if let Some(kind) = asked.only {
        one(&mut run, &mut board, &kind, asked.index);
        println!("no difference");
        return;
    }
    let began = std::time::Instant::now();
    one(&mut run, &mut board, "exhaustive", 0);
    for index in 0..asked.images {
        for kind in ["codec", "numbers", "lines", "assembler", "store", "images"] {
            one(&mut run, &mut board, kind, index);
        }
        if index < kinds::PATTERNS {
            // Every pattern once where there are as many images, else some that are spread.
            one(&mut run, &mut board, "patterns", index * (kinds::PATTERNS / asked.images.min(kinds::PATTERNS)));
        }
        // A large image costs as much as thousands of small ones.
        if index % 1000 == 100 {
            one(&mut run, &mut board, "large", index / 1000);
        }
    }
    println!("{} images with their codec, layout, line, assembler and store inputs in {:.1?}", asked.images, began.elapsed());
    let began = std::time::Instant::now();
    for index in 0..asked.lives {
        one(&mut run, &mut board, "lives", index);
        if index % 4 == 0 {
            one(&mut run, &mut board, "no_scripts", index);
        }
    }
    println!("{} lives and scripts in {:.1?}", asked.lives, began.elapsed());
    run.table();
    println!("no difference");
}
