//! Standard output: plain text, with colour where it is a terminal.

use std::io::{self, BufWriter, IsTerminal, StdoutLock, Write};

/// How a line stands out on a terminal; the words say the same without it.
#[derive(Clone, Copy, Debug, Eq, PartialEq)]
pub enum Style {
    Plain,
    Head,
    Torn,
    Blank,
}

impl Style {
    fn code(self) -> &'static str {
        match self {
            Style::Plain => "",
            Style::Head => "\x1b[1m",
            Style::Torn => "\x1b[31m",
            Style::Blank => "\x1b[2m",
        }
    }
}

pub struct Out {
    stdout: BufWriter<StdoutLock<'static>>,
    colour: bool,
    begun: bool,
}

impl Out {
    pub fn new() -> Out {
        let stdout = io::stdout();
        let plain = std::env::var_os("NO_COLOR").is_some_and(|value| !value.is_empty());
        let dumb = std::env::var_os("TERM").is_some_and(|value| value == "dumb");
        let colour = stdout.is_terminal() && !plain && !dumb;
        Out { stdout: BufWriter::with_capacity(1 << 16, stdout.lock()), colour, begun: false }
    }

    /// Whether anything was printed.
    pub fn begun(&self) -> bool {
        self.begun
    }

    /// Bytes as they are.
    pub fn text(&mut self, text: &str) -> io::Result<()> {
        self.begun = true;
        self.stdout.write_all(text.as_bytes())
    }

    /// A line, in a style.
    pub fn line(&mut self, style: Style, text: &str) -> io::Result<()> {
        let code = if self.colour { style.code() } else { "" };
        let end = if code.is_empty() { "" } else { "\x1b[0m" };
        self.text(&format!("{code}{text}{end}\n"))
    }

    /// A table: columns as wide as their widest cell, numbers to the right, and the last column, which holds words, to the left.
    pub fn table(&mut self, head: &[&str], rows: &[(Style, Vec<String>)]) -> io::Result<()> {
        let width = |column: usize| {
            let cells = rows.iter().filter_map(|(_, cells)| cells.get(column)).map(String::len);
            cells.chain([head[column].len()]).max().unwrap_or(0)
        };
        let widths: Vec<_> = (0..head.len()).map(width).collect();
        self.line(Style::Head, &aligned(head.iter().copied(), &widths))?;
        for (style, cells) in rows {
            self.line(*style, &aligned(cells.iter().map(String::as_str), &widths))?;
        }
        Ok(())
    }

    pub fn finish(&mut self) -> io::Result<()> {
        self.stdout.flush()
    }
}

fn aligned<'a>(cells: impl Iterator<Item = &'a str>, widths: &[usize]) -> String {
    let mut line = String::with_capacity(120);
    for (column, (cell, &width)) in cells.zip(widths).enumerate() {
        if column > 0 {
            line += "  ";
        }
        if column + 1 < widths.len() {
            line.extend(std::iter::repeat_n(' ', width.saturating_sub(cell.len())));
        }
        line += cell;
    }
    line.truncate(line.trim_end().len());
    line
}
