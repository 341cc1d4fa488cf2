//! Finds libstipeflute.a: in the folder that STIPEFLUTE_LIB names, else in target/staticlib of the repository, where `tools/archive`
//! proves the exports and writes it if it is not there or older than a source. An older one in a folder that was named is used, with a
//! warning. With STIPEFLUTE_LIB=none nothing is linked, for a program that makes no call.

use std::{
    env, fs,
    path::{Path, PathBuf},
    process::Command,
    time::SystemTime,
};

fn main() {
    println!("cargo:rerun-if-env-changed=STIPEFLUTE_LIB");
    let root = PathBuf::from(env::var_os("CARGO_MANIFEST_DIR").expect("cargo names the folder")).join("..");
    let sources = sources(&root);
    for source in &sources {
        println!("cargo:rerun-if-changed={}", source.display());
    }
    let named = env::var_os("STIPEFLUTE_LIB").map(PathBuf::from);
    if named.as_deref() == Some(Path::new("none")) {
        return;
    }
    let folder = named.clone().unwrap_or_else(|| root.join("target").join("staticlib"));
    let archive = folder.join("libstipeflute.a");
    let stale = sources.iter().filter_map(|source| newest(source)).max() > changed(&archive);
    if named.is_none() && stale {
        build(&root);
    }
    assert!(archive.is_file(), "no archive at {}", archive.display());
    if named.is_some() && stale {
        println!("cargo:warning={} is older than a source in crates/", archive.display());
    }
    println!("cargo:rerun-if-changed={}", archive.display());
    println!("cargo:rustc-link-search=native={}", folder.display());
    println!("cargo:rustc-link-lib=static=stipeflute");
}

/// The folder src of each crate: a crate's other folders change no code, and its out/ changes at every check.
fn sources(root: &Path) -> Vec<PathBuf> {
    let crates = fs::read_dir(root.join("crates")).into_iter().flatten().flatten();
    crates.map(|entry| entry.path().join("src")).filter(|source| source.is_dir()).collect()
}

/// When a file was last written; none where there is no such file.
fn changed(path: &Path) -> Option<SystemTime> {
    fs::metadata(path).and_then(|data| data.modified()).ok()
}

/// When the newest .rt file below a folder was written.
fn newest(folder: &Path) -> Option<SystemTime> {
    let entries = fs::read_dir(folder).ok()?;
    entries
        .flatten()
        .map(|entry| entry.path())
        .filter_map(|path| match path.is_dir() {
            true => newest(&path),
            false if path.extension().is_some_and(|end| end == "rt") => changed(&path),
            false => None,
        })
        .max()
}

fn build(root: &Path) {
    let status = Command::new(root.join("tools").join("archive")).status();
    match status {
        Ok(status) if status.success() => {}
        Ok(status) => panic!("tools/archive: {status}; put rt in PATH, or name the archive's folder in STIPEFLUTE_LIB"),
        Err(error) => panic!("tools/archive: {error}"),
    }
}
