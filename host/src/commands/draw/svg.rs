//! A text of SVG, element by element.

use std::fmt::{self, Write as _};

#[derive(Default)]
pub struct Svg {
    body: String,
}

impl Svg {
    pub fn new() -> Svg {
        Svg::default()
    }

    /// An element as it is written.
    pub fn put(&mut self, element: fmt::Arguments) {
        // A String takes every write.
        let _ = self.body.write_fmt(element);
        self.body.push('\n');
    }

    pub fn begin_group(&mut self, x: usize, y: usize) {
        self.put(format_args!("<g transform=\"translate({x},{y})\">"));
    }

    pub fn end_group(&mut self) {
        self.put(format_args!("</g>"));
    }

    /// A filled box with the words that a browser shows when it is pointed at.
    pub fn rect(&mut self, class: &str, [x, y, width, height]: [usize; 4], fill: &str, title: &str) {
        let title = escaped(title);
        self.put(format_args!(
            "<rect class=\"{class}\" x=\"{x}\" y=\"{y}\" width=\"{width}\" height=\"{height}\" fill=\"{fill}\"><title>{title}</title></rect>"
        ));
    }

    pub fn text(&mut self, [x, y]: [usize; 2], size: usize, more: &str, text: &str) {
        let text = escaped(text);
        self.put(format_args!("<text x=\"{x}\" y=\"{y}\" font-size=\"{size}\"{more}>{text}</text>"));
    }

    /// The whole document.
    pub fn finish(self, width: usize, height: usize) -> String {
        format!(
            "<?xml version=\"1.0\" encoding=\"UTF-8\"?>\n\
             <svg xmlns=\"http://www.w3.org/2000/svg\" width=\"{width}\" height=\"{height}\" viewBox=\"0 0 {width} {height}\" \
             font-family=\"Helvetica, Arial, sans-serif\" fill=\"#222222\">\n\
             <rect width=\"{width}\" height=\"{height}\" fill=\"#ffffff\"/>\n{}</svg>\n",
            self.body
        )
    }
}

/// A text without the characters that mark XML, and without those that it cannot hold.
fn escaped(text: &str) -> String {
    let mut escaped = String::new();
    for c in text.chars() {
        match c {
            '&' => escaped += "&amp;",
            '<' => escaped += "&lt;",
            '>' => escaped += "&gt;",
            '"' => escaped += "&quot;",
            '\u{fffe}' | '\u{ffff}' => escaped.push('?'),
            c if c.is_control() => escaped.push('?'),
            c => escaped.push(c),
        }
    }
    escaped
}

/// The colour of the flight that comes so many behind the first. Neighbours lie far apart on the colour circle, and black is legible on all.
pub fn colour(place: usize) -> String {
    let hue = (place * 137_508 / 1_000 + 205) % 360;
    let light = [74, 66, 80][place / 8 % 3];
    let [red, green, blue] = rgb(hue, 62, light);
    format!("#{red:02x}{green:02x}{blue:02x}")
}

/// A colour by hue (degrees), saturation and lightness (hundredths).
fn rgb(hue: usize, saturation: usize, light: usize) -> [usize; 3] {
    let reach = saturation * light.min(100 - light) / 100;
    [0, 8, 4].map(|turn| {
        let sector = (turn * 30 + hue) % 360;
        let height = (sector as isize / 3 - 30).min(90 - sector as isize / 3).clamp(-10, 10) * 10;
        let percent = light as isize - reach as isize * height.clamp(-100, 100) / 100;
        percent.clamp(0, 100) as usize * 255 / 100
    })
}

#[cfg(test)]
mod tests {
    use super::*;

    #[test]
    fn flights_that_follow_each_other_differ_in_colour() {
        let colours: Vec<_> = (0..65_472).map(colour).collect();
        assert!(colours.windows(2).all(|pair| pair[0] != pair[1]));
        let mut first = colours[..40].to_vec();
        first.sort();
        first.dedup();
        assert_eq!(first.len(), 40);
    }

    #[test]
    fn primary_colours() {
        assert_eq!([rgb(0, 100, 50), rgb(120, 100, 50), rgb(240, 100, 50)], [[255, 0, 0], [0, 255, 0], [0, 0, 255]]);
        assert_eq!([rgb(77, 0, 100), rgb(60, 100, 50)], [[255, 255, 255], [255, 255, 0]]);
    }

    #[test]
    fn marks_are_escaped() {
        assert_eq!(escaped("a<b> & \"c\"\u{7}\u{ffff}"), "a&lt;b&gt; &amp; &quot;c&quot;??");
    }
}
