//! The pages in rows, a box for each run of equal ones.

use std::collections::HashMap;

use super::svg::{Svg, colour};
use crate::log::{Log, Page};
use crate::words::{refusal, span};

/// How wide the pages of a row are together.
pub const WIDTH: usize = 1_024;

/// How many pages stand in a row, how high a row is and how large its letters are.
pub struct Grid {
    columns: usize,
    rows: usize,
    row: usize,
    pub letters: usize,
}

impl Grid {
    pub fn of(log: &Log) -> Grid {
        let pages = log.pages.len();
        let (columns, row, letters) = match pages {
            ..=16 => (16, 44, 16),
            17..=256 => (32, 28, 13),
            257..=1_024 => (64, 20, 11),
            1_025..=8_192 => (128, 16, 10),
            _ => (256, 12, 9),
        };
        Grid { columns, rows: pages.div_ceil(columns), row, letters }
    }

    pub fn height(&self) -> usize {
        self.rows * self.row
    }

    fn cell(&self) -> usize {
        WIDTH / self.columns
    }

    /// How high a page is drawn: a little less than a row.
    fn tall(&self) -> usize {
        self.row - 2
    }
}

/// What a page looks like; neighbours that look alike are one box.
#[derive(Clone, Copy, Eq, PartialEq)]
enum Look {
    Flight(u32),
    Torn,
    Blank,
    /// Blank, below the scan's page.
    Hole,
}

/// A run of pages that look alike, within a row.
struct Run {
    first: usize,
    len: usize,
    look: Look,
}

pub fn draw(svg: &mut Svg, log: &Log, grid: &Grid) {
    patterns(svg, grid);
    let looks: Vec<_> = log.pages.iter().zip(0..).map(|(page, index)| look(log, index, *page)).collect();
    let colours = colours(&looks);
    for row in 0..grid.rows {
        let first = row * grid.columns;
        let in_row = &looks[first..looks.len().min(first + grid.columns)];
        for run in runs(in_row, first) {
            boxed(svg, log, grid, &run, &colours);
        }
        notes(svg, log, grid, row, in_row);
    }
    separators(svg, grid, looks.len());
    starts(svg, grid, &looks);
    numbers(svg, grid, &looks);
    next_page(svg, log, grid);
}

fn look(log: &Log, index: u32, page: Page) -> Look {
    match page {
        Page::Whole(metadata) => Look::Flight(metadata.flight_id),
        Page::Torn(_) => Look::Torn,
        Page::Blank(_) if log.used(index) => Look::Hole,
        Page::Blank(_) => Look::Blank,
    }
}

/// Each flight's colour, in the order in which flights first stand on pages.
fn colours(looks: &[Look]) -> HashMap<u32, String> {
    let mut colours = HashMap::new();
    for look in looks {
        if let Look::Flight(flight) = look {
            let place = colours.len();
            colours.entry(*flight).or_insert_with(|| colour(place));
        }
    }
    colours
}

fn runs(looks: &[Look], first: usize) -> Vec<Run> {
    let mut runs: Vec<Run> = Vec::new();
    for (at, &look) in looks.iter().enumerate() {
        match runs.last_mut() {
            Some(run) if run.look == look => run.len += 1,
            _ => runs.push(Run { first: first + at, len: 1, look }),
        }
    }
    runs
}

/// The fills of pages without a flight, a tile for each page.
fn patterns(svg: &mut Svg, grid: &Grid) {
    let (width, row, tall) = (grid.cell(), grid.row, grid.tall());
    let cross = format!("M1 1L{0} {1}M{0} 1L1 {1}", width - 1, tall - 1);
    let tile = |name: &str| format!("<pattern id=\"{name}\" width=\"{width}\" height=\"{row}\" patternUnits=\"userSpaceOnUse\">");
    let filled = |fill: &str| format!("<rect width=\"{width}\" height=\"{tall}\" fill=\"{fill}\"/>");
    // A cross in a narrow page would hide it.
    let shown = if width < 8 { 0 } else { 1 };
    let crossed = |stroke: &str| format!("<path d=\"{cross}\" stroke=\"{stroke}\" stroke-width=\"{shown}\"/>");
    svg.put(format_args!(
        "<defs>\n{}{}{}</pattern>\n{}{}{}</pattern>\n{}{}</pattern>\n</defs>",
        tile("torn"),
        filled("#111111"),
        crossed("#ffffff"),
        tile("hole"),
        filled("#ffffff"),
        crossed("#111111"),
        tile("blank"),
        filled("#eeeeee"),
    ));
}

fn boxed(svg: &mut Svg, log: &Log, grid: &Grid, run: &Run, colours: &HashMap<u32, String>) {
    let last = run.first + run.len - 1;
    let pages = format!("page{} {}", if run.len == 1 { "" } else { "s" }, span(run.first as u32, last as u32));
    let (class, fill, title) = match run.look {
        Look::Flight(flight) => ("flight", colours.get(&flight).map_or("#ffffff", String::as_str), format!("flight {flight}: {pages}")),
        Look::Torn => ("torn", "url(#torn)", format!("torn: {pages}{}", why(log, run))),
        Look::Blank => ("blank", "url(#blank)", format!("blank: {pages}")),
        Look::Hole => ("hole", "url(#hole)", format!("blank below the scan's next page: {pages}")),
    };
    svg.rect(class, place(grid, run.first, run.len), fill, &title);
}

/// Why a single torn page does not decode.
fn why(log: &Log, run: &Run) -> String {
    match log.pages.get(run.first) {
        Some(Page::Torn(why)) if run.len == 1 => format!(", refused {}", refusal(*why)),
        _ => String::new(),
    }
}

/// The box of so many pages from a page on, in its row.
fn place(grid: &Grid, page: usize, len: usize) -> [usize; 4] {
    let (row, column) = (page / grid.columns, page % grid.columns);
    [column * grid.cell(), row * grid.row, len * grid.cell(), grid.tall()]
}

/// The row's first page at its left, the torn pages and the scan's next page at its right.
fn notes(svg: &mut Svg, log: &Log, grid: &Grid, row: usize, looks: &[Look]) {
    let first = row * grid.columns;
    let y = row * grid.row + (grid.tall() + grid.letters * 7 / 10) / 2;
    if grid.row > 12 || row.is_multiple_of(4) {
        svg.put(format_args!("<text x=\"-8\" y=\"{y}\" font-size=\"{}\" text-anchor=\"end\">{first}</text>", grid.letters));
    }
    let torn = looks.iter().filter(|look| matches!(look, Look::Torn | Look::Hole)).count();
    let mut notes = Vec::new();
    if torn > 0 {
        notes.push(format!("{torn} torn"));
    }
    let next = log.scan.next_page as usize;
    let full = next == log.pages.len() && first + looks.len() == next;
    if full {
        notes.push("\u{25c0} no page is left".to_string());
    } else if !log.foreign() && (first..first + looks.len()).contains(&next) {
        notes.push(format!("\u{25c0} next page {next}"));
    }
    if !notes.is_empty() {
        svg.text([WIDTH + 8, y], grid.letters.min(13), "", &notes.join(", "));
    }
}

/// White lines between pages, where they are wide enough.
fn separators(svg: &mut Svg, grid: &Grid, pages: usize) {
    let cell = grid.cell();
    if cell < 8 {
        return;
    }
    for row in 0..grid.rows {
        let columns = (pages - row * grid.columns).min(grid.columns);
        let (y, tall) = (row * grid.row, grid.tall());
        let lines: String = (1..columns).map(|column| format!("M{} {y}v{tall}", column * cell)).collect();
        svg.put(format_args!("<path d=\"{lines}\" stroke=\"#ffffff\" stroke-width=\"1\"/>"));
    }
}

/// The first page of each flight: the first, and each whole page of another flight than the whole page before it.
fn flight_starts(looks: &[Look]) -> Vec<(usize, u32)> {
    let mut starts: Vec<(usize, u32)> = Vec::new();
    for (index, look) in looks.iter().enumerate() {
        if let Look::Flight(flight) = look
            && starts.last().is_none_or(|&(_, before)| before != *flight)
        {
            starts.push((index, *flight));
        }
    }
    starts
}

/// A dark line before each flight's first page.
fn starts(svg: &mut Svg, grid: &Grid, looks: &[Look]) {
    let mut lines = String::new();
    for (page, _) in flight_starts(looks) {
        let [x, y, _, tall] = place(grid, page, 1);
        lines += &format!("M{x} {y}v{tall}");
    }
    let width = if grid.cell() < 8 { 1 } else { 2 };
    svg.put(format_args!("<path class=\"starts\" d=\"M0 0{lines}\" stroke=\"#111111\" stroke-width=\"{width}\"/>"));
}

/// Each flight's number, in the first run of its pages that has room for it.
fn numbers(svg: &mut Svg, grid: &Grid, looks: &[Look]) {
    for (start, flight) in flight_starts(looks) {
        let text = flight.to_string();
        let needed = text.len() * grid.letters * 6 / 10 + 6;
        let mut page = start;
        for _ in 0..3 {
            let row_end = (page / grid.columns + 1) * grid.columns;
            let len = looks[page..looks.len().min(row_end)].iter().take_while(|&&look| look == Look::Flight(flight)).count();
            if len * grid.cell() >= needed {
                let [x, y, _, tall] = place(grid, page, len);
                svg.text([x + 4, y + (tall + grid.letters * 7 / 10) / 2], grid.letters, " class=\"number\"", &text);
                break;
            }
            page += len.max(1);
            if page >= looks.len() {
                break;
            }
        }
    }
}

/// A frame around the page that comes next.
fn next_page(svg: &mut Svg, log: &Log, grid: &Grid) {
    let next = log.scan.next_page as usize;
    if log.foreign() || next >= log.pages.len() {
        return;
    }
    let [x, y, width, tall] = place(grid, next, 1);
    svg.put(format_args!(
        "<rect class=\"next\" x=\"{x}\" y=\"{y}\" width=\"{width}\" height=\"{tall}\" fill=\"none\" stroke=\"#cc0000\" stroke-width=\"3\"/>"
    ));
}
