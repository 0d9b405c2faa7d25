//! The elements of a picture, as the text of an SVG file.

use std::fmt::{self, Display, Write};

/// A light card of its own, so that the page behind it may be light or dark, and the fonts that a system has.
const STYLE: &str = "
text { font-family: system-ui, -apple-system, 'Segoe UI', Helvetica, Arial, sans-serif; font-size: 12px; fill: #57606a }
.mono { font-family: ui-monospace, SFMono-Regular, Menlo, Consolas, 'Liberation Mono', monospace; fill: #1f2328 }
.id { font-size: 13px; font-weight: 600 }
.kind { font-size: 11px }
.name { font-weight: 600; fill: #ffffff }
.middle { text-anchor: middle }
.right { text-anchor: end }
.card { fill: #fbfcfd; stroke: #d0d7de }
.line { stroke: #8c99a8; stroke-width: 2 }
.host { fill: #24344d }
.bus { fill: #4a6079 }
.bridge { fill: #eef2f6; stroke: #b3bfcc }
.end { fill: #ffffff; stroke: #b3bfcc }
.io { fill: #c2570c; stroke: #c2570c }
.low { fill: #1668b8; stroke: #1668b8 }
.high { fill: #12805c; stroke: #12805c }
.any { fill: #57606a; stroke: #57606a }
.window { fill: none; stroke-width: 1.6 }
";

/// What was drawn so far.
#[derive(Default)]
pub struct Svg(String);

impl Svg {
    /// A line down from one point to another, upright at both ends.
    pub fn curve(&mut self, class: &str, [x, top]: [usize; 2], [end, bottom]: [usize; 2]) {
        let middle = (top + bottom) / 2;
        self.put(format_args!(r#"<path class="{class}" d="M{x} {top}C{x} {middle} {end} {middle} {end} {bottom}"/>"#));
    }

    /// A line down, from `top` to `bottom`.
    pub fn line(&mut self, x: usize, top: usize, bottom: usize) {
        self.put(format_args!(r#"<path class="line" d="M{x} {top}V{bottom}"/>"#));
    }

    pub fn rectangle(&mut self, class: &str, [x, y]: [usize; 2], [width, height]: [usize; 2], radius: usize) {
        self.put(format_args!(
            r#"<rect class="{class}" x="{x}" y="{y}" width="{width}" height="{height}" rx="{radius}"/>"#
        ));
    }

    pub fn text(&mut self, class: &str, x: usize, baseline: usize, text: impl Display) {
        let text = text.to_string().replace('&', "&amp;").replace('<', "&lt;").replace('>', "&gt;");
        match class {
            "" => self.put(format_args!(r#"<text x="{x}" y="{baseline}">{text}</text>"#)),
            _ => self.put(format_args!(r#"<text class="{class}" x="{x}" y="{baseline}">{text}</text>"#)),
        }
    }

    fn put(&mut self, element: fmt::Arguments) {
        // Writing to a string does not fail.
        let _ = writeln!(self.0, "{element}");
    }

    /// The file, with more styles where the picture has its own.
    pub fn finish(self, title: &str, [width, height]: [usize; 2], styles: &str) -> String {
        let size = format!(r#"width="{width}" height="{height}" viewBox="0 0 {width} {height}""#);
        let (card_width, card_height) = (width - 1, height - 1);
        let body = self.0;
        format!(
            r#"<svg xmlns="http://www.w3.org/2000/svg" {size} role="img">
<title>{title}</title>
<style>{STYLE}{styles}</style>
<rect class="card" x="0.5" y="0.5" width="{card_width}" height="{card_height}" rx="8"/>
{body}</svg>
"#
        )
    }
}
