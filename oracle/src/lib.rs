//! The Rust log modules, built unchanged, and Stipeflute's C exports, side by side.
//!
//! The nine files name each other by crate. Here all of them are modules of one crate that bears every such name, so that
//! `ferrowasp_config::page`, `crate::records` and `heapless::Vec` lead to the modules below.

extern crate self as ferrowasp_blackbox;
extern crate self as ferrowasp_boundary_contracts;
extern crate self as ferrowasp_config;
extern crate self as ferrowasp_flight_control;
extern crate self as ferrowasp_io_contracts;
extern crate self as ferrowasp_protocol;
extern crate self as ferrowasp_storage;
extern crate self as heapless;

mod stand_ins;
pub use stand_ins::heapless::{String, Vec, spsc};
pub use stand_ins::{commands, drone_toolbox, link, messages, nor_storage, stored};

include!(concat!(env!("OUT_DIR"), "/ferrowasp.rs"));

pub mod compare;
pub mod images;
#[cfg(not(alone))]
pub mod kinds;
pub mod life;
pub mod lists;
#[cfg(not(alone))]
pub mod ours;
pub mod scripts;
pub mod seeded;
pub mod theirs;

/// Without the archive the Rust stands beside itself: its answers alone are asked for.
#[cfg(alone)]
pub use theirs as ours;
