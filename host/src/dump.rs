//! A dump: a board's whole flash, whose length is the capacity.

use std::fs::File;
use std::io::{self, Read as _};
use std::path::{Path, PathBuf};

use stipeflute::{Flash, StorageLayout};

use crate::request::shown;
use crate::stop::Stop;
use crate::words::grouped;

/// The largest capacity.
const LONGEST: u64 = 16_777_216;

/// The sample: three power-ons on a flash of 32,768 bytes, played by the proved writer (tests/sample.rs has the recipe).
const SAMPLE: &[u8] = include_bytes!("../samples/brown_out");

pub enum Source {
    Sample,
    Input,
    File(PathBuf),
}

impl Source {
    pub fn name(&self) -> String {
        match self {
            Source::Sample => "host/samples/brown_out (embedded)".to_string(),
            Source::Input => "standard input".to_string(),
            Source::File(path) => shown(path.as_os_str()),
        }
    }
}

pub struct Dump {
    pub name: String,
    pub layout: StorageLayout,
    image: Vec<u8>,
    /// One for each 256 bytes: all read well, since they come from a file.
    faults: Vec<u8>,
}

impl Dump {
    /// Reads a dump and asks for the layout of its length.
    pub fn open(source: &Source) -> Result<Dump, Stop> {
        let name = source.name();
        let read = match source {
            Source::Sample => read(&name, SAMPLE, None)?,
            Source::Input => read(&name, io::stdin().lock(), None)?,
            Source::File(path) => read_file(&name, path)?,
        };
        let capacity = u32::try_from(read.len).unwrap_or(u32::MAX);
        let layout = StorageLayout::new(capacity).map_err(|refused| Stop::Refused { refused, why: no_capacity(&read) })?;
        let faults = vec![0; read.image.len() / 256];
        Ok(Dump { name, layout, image: read.image, faults })
    }

    pub fn flash(&self) -> Flash<'_> {
        Flash { capacity_bytes: self.layout.capacity_bytes, image: &self.image, faults: &self.faults }
    }
}

/// What was read: all of it, or nothing of what is longer than a dump may be.
struct Read {
    image: Vec<u8>,
    len: u64,
    /// Whether the length is only known to be at least that.
    at_least: bool,
}

fn read_file(name: &str, path: &Path) -> Result<Read, Stop> {
    let failed = |error: io::Error| Stop::trouble(format!("cannot read {name}: {error}"));
    let file = File::open(path).map_err(failed)?;
    let data = file.metadata().map_err(failed)?;
    if data.is_dir() {
        return Err(Stop::trouble(format!("a folder, not a dump: {name}")));
    }
    read(name, file, data.is_file().then_some(data.len()))
}

/// All bytes up to one more than a dump may have; a file must give as many as its length says.
fn read(name: &str, input: impl io::Read, told: Option<u64>) -> Result<Read, Stop> {
    if let Some(len) = told.filter(|&len| len > LONGEST) {
        return Ok(Read { image: Vec::new(), len, at_least: false });
    }
    let mut image = Vec::with_capacity(told.unwrap_or(0) as usize);
    input.take(LONGEST + 1).read_to_end(&mut image).map_err(|error| Stop::trouble(format!("cannot read {name}: {error}")))?;
    let len = image.len() as u64;
    match told {
        Some(told) if told != len => Err(Stop::trouble(format!("{name} has {} bytes and {} were read", grouped(told), grouped(len)))),
        _ => Ok(Read { image, len, at_least: len > LONGEST }),
    }
}

/// Which lengths are capacities, and the nearest.
fn no_capacity(read: &Read) -> String {
    let nearest: Vec<_> = nearest(read.len).into_iter().map(grouped).collect();
    format!(
        "a length of {} bytes{} is no capacity; capacities are the multiples of 4,096 from 20,480 to 16,777,216, and the nearest {} {}",
        grouped(read.len),
        if read.at_least { " or more" } else { "" },
        if nearest.len() == 1 { "is" } else { "are" },
        nearest.join(" and ")
    )
}

/// The nearest lengths that the layout takes: two where a length lies in the middle.
fn nearest(len: u64) -> Vec<u64> {
    let below = (len / 4_096 * 4_096).clamp(20_480, LONGEST);
    let above = len.saturating_add(4_095) / 4_096 * 4_096;
    let above = above.clamp(20_480, LONGEST);
    let least = below.abs_diff(len).min(above.abs_diff(len));
    let mut found: Vec<_> = [below, above].into_iter().filter(|capacity| capacity.abs_diff(len) == least).collect();
    found.dedup();
    found.retain(|&capacity| StorageLayout::new(capacity as u32).is_ok());
    found
}

#[cfg(test)]
mod tests {
    use super::*;

    #[test]
    fn the_nearest_capacity_is_named() {
        assert_eq!(nearest(0), [20_480]);
        assert_eq!(nearest(16_384), [20_480]);
        assert_eq!(nearest(20_481), [20_480]);
        assert_eq!(nearest(24_575), [24_576]);
        assert_eq!(nearest(22_528), [20_480, 24_576]);
        assert_eq!(nearest(LONGEST + 1), [LONGEST]);
        assert_eq!(nearest(u64::MAX), [LONGEST]);
    }

    #[test]
    fn a_read_that_ends_early_is_trouble() {
        let early = read("x", &[0u8; 100][..], Some(20_480));
        assert!(matches!(early, Err(Stop::Trouble(text)) if text == "x has 20,480 bytes and 100 were read"));
    }
}
