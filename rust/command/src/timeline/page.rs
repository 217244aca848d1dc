//! SVG as text: numbers of pixels, texts with about their widths, and the shapes that the picture is made of.

use std::fmt::Display;

/// A number of pixels, to a tenth.
pub fn px(pixels: f64) -> String {
    let text = format!("{pixels:.1}");
    text.strip_suffix(".0").unwrap_or(&text).to_string()
}

/// About the width of a text.
pub fn width(text: &str, size: f64) -> f64 {
    0.56 * size * text.chars().count() as f64
}

/// The first of some texts that has room.
pub fn fitting(texts: &[String], size: f64, room: f64) -> Option<&String> {
    texts.iter().find(|text| width(text, size) <= room)
}

pub fn escaped(text: &str) -> String {
    text.replace('&', "&amp;").replace('<', "&lt;").replace('>', "&gt;").replace('"', "&quot;")
}

/// SVG under construction.
#[derive(Default)]
pub struct Page {
    pub text: String,
}

impl Page {
    pub fn put(&mut self, text: impl Display) {
        self.text += &text.to_string();
        self.text.push('\n');
    }

    pub fn write(&mut self, class: &str, x: f64, y: f64, text: &str) {
        self.put(format!("<text class=\"{class}\" x=\"{}\" y=\"{}\">{}</text>", px(x), px(y), escaped(text)));
    }

    /// A rectangle that says what it is where the pointer rests on it.
    pub fn band(&mut self, class: &str, (left, right): (f64, f64), (top, height): (f64, f64), title: &str) {
        let title = if title.is_empty() { String::new() } else { format!("<title>{}</title>", escaped(title)) };
        let (x, y, width, height) = (px(left), px(top), px(right - left), px(height));
        self.put(format!("<rect class=\"{class}\" x=\"{x}\" y=\"{y}\" width=\"{width}\" height=\"{height}\">{title}</rect>"));
    }

    pub fn path(&mut self, class: &str, path: &str) {
        self.put(format!("<path class=\"{class}\" d=\"{path}\"/>"));
    }
}

/// The point of an arrow, down or up.
pub fn tip(x: f64, y: f64, down: bool) -> String {
    let back = if down { -8.0 } else { 8.0 };
    format!("M{} {}l-4 {}h8z", px(x), px(y), px(back))
}
