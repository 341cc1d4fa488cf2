//! Names the nine Rust files by path, so that they are built unchanged.
//!
//! FERROWASP_SRC is the folder that holds the files (default: ../shared/docs/src beside the project's root). Each file's
//! SHA-256 must be the one in sources.sha256, or the build stops. STIPEFLUTE_LIB is what rust/build.rs takes it for.

#[path = "build/sha256.rs"]
mod sha256;

use std::env;
use std::fs;
use std::path::{Path, PathBuf};

/// Each file, and the items that another module of the oracle has to reach inside it. They are reached by a child module behind a
/// byte-exact copy, since a child sees its parent's private items.
const FILES: [(&str, &str, &str); 9] = [
    ("page", "crates/ferrowasp-config/src/page.rs", ""),
    ("layout", "crates/ferrowasp-storage/src/layout.rs", ""),
    ("blackbox", "crates/ferrowasp-protocol/src/blackbox.rs", ""),
    ("rate_record", "crates/ferrowasp-protocol/src/rate_record.rs", ""),
    ("records", "crates/ferrowasp-blackbox/src/records.rs", ""),
    ("sync_ledger", "crates/ferrowasp-blackbox/src/sync_ledger.rs", ""),
    ("log_writer", "crates/ferrowasp-blackbox/src/log_writer.rs", include_str!("build/log_writer_reached.rs")),
    ("storage_maintenance", "crates/ferrowasp-blackbox/src/storage_maintenance.rs", include_str!("build/storage_maintenance_reached.rs")),
    ("log_sync", "crates/ferrowasp-cli/src/log_sync.rs", include_str!("build/log_sync_reached.rs")),
];

fn main() {
    let root = PathBuf::from(env::var("CARGO_MANIFEST_DIR").unwrap());
    let out = PathBuf::from(env::var("OUT_DIR").unwrap());
    println!("cargo:rerun-if-changed=build.rs");
    println!("cargo:rerun-if-changed=build");
    println!("cargo:rerun-if-changed=sources.sha256");
    println!("cargo:rerun-if-env-changed=FERROWASP_SRC");
    let sources = match env::var("FERROWASP_SRC") {
        Ok(folder) => PathBuf::from(folder),
        Err(_) => root.join("../../shared/docs/src"),
    };
    let sums = fs::read_to_string(root.join("sources.sha256")).expect("sources.sha256");
    let mut modules = String::new();
    for (name, path, reached) in FILES {
        let file = checked(&sources, path, &sums);
        let built = if reached.is_empty() { file } else { with_child(&file, name, reached, &out) };
        modules += &format!("#[path = {built:?}]\npub mod {name};\n");
    }
    fs::write(out.join("ferrowasp.rs"), modules).unwrap();
    alone_or_linked();
}

/// The file's absolute path, once its SHA-256 is the one that is written down.
fn checked(sources: &Path, path: &str, sums: &str) -> PathBuf {
    let file = sources.join(path);
    let bytes = match fs::read(&file) {
        Ok(bytes) => bytes,
        Err(error) => stop(&format!("{}: {error}; set FERROWASP_SRC to the folder that holds crates/", file.display())),
    };
    let wanted = sums.lines().find_map(|line| line.split_once("  ").filter(|(_, named)| *named == path));
    let Some((wanted, _)) = wanted else { stop(&format!("{path} is not in sources.sha256")) };
    let found = sha256::hex(&bytes);
    if found != wanted {
        stop(&format!("{} is not the file this oracle was written for: sha256 {found}, not {wanted}", file.display()));
    }
    println!("cargo:rerun-if-changed={}", file.display());
    fs::canonicalize(file).unwrap()
}

/// A copy in OUT_DIR: the file's bytes, then a child module.
fn with_child(file: &Path, name: &str, reached: &str, out: &Path) -> PathBuf {
    let mut bytes = fs::read(file).unwrap();
    bytes.extend_from_slice(reached.as_bytes());
    let copy = out.join(format!("{name}.rs"));
    fs::write(&copy, bytes).unwrap();
    copy
}

/// rust/ links the archive. With STIPEFLUTE_LIB=none only the Rust's own answers are asked for (the program `answers`): no export is
/// called, so none has to be there.
fn alone_or_linked() {
    println!("cargo:rustc-check-cfg=cfg(alone)");
    println!("cargo:rerun-if-env-changed=STIPEFLUTE_LIB");
    if env::var("STIPEFLUTE_LIB").as_deref() == Ok("none") {
        println!("cargo:rustc-cfg=alone");
    }
}

fn stop(why: &str) -> ! {
    eprintln!("\noracle: {why}\n");
    std::process::exit(1);
}
