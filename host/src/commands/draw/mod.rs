//! `draw`: the log as a picture in SVG.

mod grid;
mod legend;
mod svg;

use super::Command;
use crate::dump::Dump;
use crate::flights;
use crate::log::Log;
use crate::out::Out;
use crate::request::Request;
use crate::stop::Stop;
use grid::Grid;
use svg::Svg;

pub const COMMAND: Command = Command { name: "draw", help: include_str!("../../help/draw.txt"), words: 1, json: false, run };

/// Room to the left of the pages for their numbers, and to the right for what a row holds.
const LEFT: usize = 64;
const RIGHT: usize = 170;

fn run(request: &Request, out: &mut Out) -> Result<(), Stop> {
    let dump = Dump::open(&request.source(0))?;
    let log = Log::of(&dump)?;
    let flights = flights::of(&log);
    let grid = Grid::of(&log);
    let mut svg = Svg::new();
    let top = legend::above(&mut svg, &dump, &log, flights.as_deref());
    svg.begin_group(LEFT, top);
    grid::draw(&mut svg, &log, &grid);
    svg.end_group();
    let bottom = legend::below(&mut svg, top + grid.height() + 24, flights.as_deref());
    Ok(out.text(&svg.finish(LEFT + grid::WIDTH + RIGHT, bottom))?)
}
