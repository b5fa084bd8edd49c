//! Writes the few shapes that the chart uses.

use super::layout::{shorten, LONGEST_NAME};
use std::fmt::Write;

const STYLE: &str = "\
text { font: 12px sans-serif; fill: #222 }
.heading { font-size: 16px; font-weight: bold }
.quiet { fill: #666 }
.middle { text-anchor: middle }
.end { text-anchor: end }
.job, .goal { font-weight: bold }
.job.quiet { font-weight: normal }
.paper, .even { fill: #fff }
.odd { fill: #f3f5f2 }
.before { fill: #dcd8d0 }
.span { fill: #dbe7d5 }
.grid { stroke: #ccc }
.need { fill: #3f72a8 }
.set { fill: #2e7d32; stroke: #fff; stroke-width: 0.5 }
.clear { fill: #fff; stroke: #c62828; stroke-width: 1.5 }
";

pub struct Svg {
    text: String,
}

/// The text as XML takes it; what XML cannot hold is replaced.
fn escape(text: &str) -> String {
    let mut escaped = String::new();
    for c in text.chars() {
        match c {
            '&' => escaped.push_str("&amp;"),
            '<' => escaped.push_str("&lt;"),
            '>' => escaped.push_str("&gt;"),
            '"' => escaped.push_str("&quot;"),
            '\'' => escaped.push_str("&apos;"),
            '\u{fffe}' | '\u{ffff}' => escaped.push('\u{fffd}'),
            c if c.is_control() => escaped.push('\u{fffd}'),
            c => escaped.push(c),
        }
    }
    escaped
}

impl Svg {
    pub fn new(width: i32, height: i32, title: &str) -> Svg {
        let mut svg = Svg { text: String::new() };
        svg.put(format!(
            "<svg xmlns=\"http://www.w3.org/2000/svg\" width=\"{width}\" height=\"{height}\" \
             viewBox=\"0 0 {width} {height}\">"
        ));
        svg.put(format!("<title>{}</title>", escape(title)));
        svg.put(format!("<style>\n{STYLE}</style>"));
        svg.rect("paper", 0, 0, width, height, "");
        svg
    }

    pub fn finish(mut self) -> String {
        self.put("</svg>".to_string());
        self.text
    }

    fn put(&mut self, line: String) {
        self.text.push_str(&line);
        self.text.push('\n');
    }

    /// A shape; the words are shown while the pointer rests on it.
    fn shape(&mut self, name: &str, class: &str, attributes: &str, words: &str) {
        let mut line = format!("<{name} class=\"{class}\" {attributes}");
        let _ = if words.is_empty() {
            write!(line, "/>")
        } else {
            write!(line, "><title>{}</title></{name}>", escape(words))
        };
        self.put(line);
    }

    pub fn rect(&mut self, class: &str, x: i32, y: i32, width: i32, height: i32, words: &str) {
        let place = format!("x=\"{x}\" y=\"{y}\" width=\"{width}\" height=\"{height}\"");
        self.shape("rect", class, &place, words);
    }

    /// A vertical line.
    pub fn line(&mut self, class: &str, x: i32, top: i32, bottom: i32) {
        let place = format!("x1=\"{x}\" y1=\"{top}\" x2=\"{x}\" y2=\"{bottom}\"");
        self.shape("line", class, &place, "");
    }

    /// A vertical line that stands out; only charts of late starts have one, so that it brings its own style.
    pub fn fault(&mut self, x: i32, top: i32, bottom: i32, words: &str) {
        let style = "stroke=\"#c62828\" stroke-width=\"2\" stroke-dasharray=\"6 4\"";
        let place = format!("x1=\"{x}\" y1=\"{top}\" x2=\"{x}\" y2=\"{bottom}\" {style}");
        self.shape("line", "fault", &place, words);
    }

    /// A triangle with its tip at x, y; it lies below the tip, or above for a negative height.
    pub fn mark(&mut self, class: &str, x: i32, y: i32, height: i32, words: &str) {
        let (left, right, base) = (x - 6, x + 6, y + height);
        let place = format!("points=\"{x},{y} {left},{base} {right},{base}\"");
        self.shape("polygon", class, &place, words);
    }

    pub fn text(&mut self, class: &str, x: i32, y: i32, text: &str) {
        let text = escape(text);
        self.put(format!("<text class=\"{class}\" x=\"{x}\" y=\"{y}\">{text}</text>"));
    }

    /// A name: cut if it is long, and then shown whole while the pointer rests on it.
    pub fn label(&mut self, class: &str, x: i32, y: i32, text: &str) {
        let (shown, whole) = (escape(&shorten(text, LONGEST_NAME)), escape(text));
        let words = if shown == whole { String::new() } else { format!("<title>{whole}</title>") };
        self.put(format!("<text class=\"{class}\" x=\"{x}\" y=\"{y}\">{shown}{words}</text>"));
    }
}

#[cfg(test)]
mod tests {
    use super::*;

    #[test]
    fn names_are_escaped() {
        assert_eq!(escape("a<b> & \"c\" 'd'"), "a&lt;b&gt; &amp; &quot;c&quot; &apos;d&apos;");
        assert_eq!(escape("ü\u{1}\u{ffff}"), "ü\u{fffd}\u{fffd}");
    }

    #[test]
    fn a_long_name_is_cut_and_kept_in_its_title() {
        let mut svg = Svg { text: String::new() };
        let name = "x".repeat(40) + "<";
        svg.label("job", 1, 2, &name);
        let (front, back, whole) = ("x".repeat(16), "x".repeat(14), "x".repeat(40));
        assert_eq!(
            svg.text,
            format!(
                "<text class=\"job\" x=\"1\" y=\"2\">{front}…{back}&lt;<title>{whole}&lt;</title></text>\n"
            )
        );
    }
}
