//! A small writer of SVG: shapes and words on a ground of their own, with all text escaped.

use std::fmt::Write;

/// The text's colour.
pub const INK: &str = "#222222";
/// The colour of lines that only guide the eye.
pub const PALE: &str = "#dddddd";
/// The colour of what is over.
pub const GREY: &str = "#bbbbbb";
/// The first of the colours that stay apart for every kind of sight.
pub const BLUE: &str = "#0072b2";
/// A lighter blue, on which the text's colour is legible.
pub const SKY: &str = "#8fcdf0";
/// A strong orange red.
pub const VERMILION: &str = "#d55e00";
/// A green.
pub const GREEN: &str = "#009e73";
/// A lighter green, on which the text's colour is legible.
pub const MINT: &str = "#8ad9bf";
/// A yellow orange.
pub const ORANGE: &str = "#e69f00";

/// How high letters are where nothing else is said.
const SIZE: f64 = 13.0;

/// How words are set.
#[derive(Clone, Copy, Debug)]
pub struct Font {
    size: f64,
    anchor: &'static str,
    bold: bool,
    colour: &'static str,
}

impl Font {
    /// Words that begin at their place.
    pub const START: Font = Font::anchored("start");
    /// Words around their place.
    pub const MIDDLE: Font = Font::anchored("middle");
    /// Words that end at their place.
    pub const END: Font = Font::anchored("end");

    const fn anchored(anchor: &'static str) -> Font {
        Font {
            size: SIZE,
            anchor,
            bold: false,
            colour: INK,
        }
    }

    /// The same in another size.
    pub const fn size(self, size: f64) -> Font {
        Font { size, ..self }
    }

    /// The same in bold letters.
    pub const fn bold(self) -> Font {
        Font { bold: true, ..self }
    }

    /// The same in another colour.
    pub const fn colour(self, colour: &'static str) -> Font {
        Font { colour, ..self }
    }

    /// The attributes that differ from the picture's own.
    fn attributes(&self) -> String {
        let mut attributes = format!("text-anchor=\"{}\"", self.anchor);
        if self.size != SIZE {
            attributes += &format!(" font-size=\"{}\"", short(self.size));
        }
        if self.bold {
            attributes += " font-weight=\"bold\"";
        }
        if self.colour != INK {
            attributes += &format!(" fill=\"{}\"", self.colour);
        }
        attributes
    }
}

/// About how wide words are: hardly a font that a page takes for sans-serif is wider.
pub fn width(words: &str, size: f64) -> f64 {
    let share = |sign: char| match sign {
        ' ' | ',' | '.' | ':' | ';' | 'f' | 'i' | 'j' | 'l' | 'r' | 't' | '(' | ')' => 0.41,
        'm' | 'w' | '%' | '=' => 0.97,
        'A'..='Z' => 0.7,
        _ => 0.64,
    };
    size * words.chars().map(share).sum::<f64>()
}

/// A picture that is being drawn.
pub struct Svg {
    text: String,
}

impl Svg {
    /// A picture of this size with its title and nothing else on it; `about` says what draws it.
    /// It has a ground of its own, so that a dark page does not swallow the text.
    pub fn new(about: &str, title: &str, [width, height]: [usize; 2]) -> Svg {
        let mut svg = Svg {
            text: String::new(),
        };
        let size =
            format!("width=\"{width}\" height=\"{height}\" viewBox=\"0 0 {width} {height}\"");
        let font = format!("font-family=\"sans-serif\" font-size=\"{SIZE}\" fill=\"{INK}\"");
        svg.put(&format!("<!-- {} -->", escaped(about)));
        svg.put(&format!(
            "<svg xmlns=\"http://www.w3.org/2000/svg\" role=\"img\" {size} {font}>"
        ));
        svg.put(&format!("<title>{}</title>", escaped(title)));
        let [width, height] = [width as f64, height as f64];
        let frame = "rx=\"8\" fill=\"#ffffff\" stroke=\"#cccccc\"";
        svg.rect([0.5, 0.5, width - 1.0, height - 1.0], frame);
        svg
    }

    /// A rectangle: where it begins, its width and its height.
    pub fn rect(&mut self, at: [f64; 4], style: &str) {
        let at = rectangle(at);
        self.put(&format!("<rect {at} {style}/>"));
    }

    /// A rectangle that says something when it is pointed at.
    pub fn told_rect(&mut self, at: [f64; 4], style: &str, told: &str) {
        let (at, told) = (rectangle(at), escaped(told));
        self.put(&format!("<rect {at} {style}><title>{told}</title></rect>"));
    }

    /// A line from one point to another.
    pub fn line(&mut self, ends: [f64; 4], style: &str) {
        let [x1, y1, x2, y2] = ends.map(short);
        self.put(&format!(
            "<line x1=\"{x1}\" y1=\"{y1}\" x2=\"{x2}\" y2=\"{y2}\" {style}/>"
        ));
    }

    /// An arrow to the right, from x to its head.
    pub fn arrow(&mut self, [x, y]: [f64; 2], head: f64, colour: &str) {
        let style = format!("stroke=\"{colour}\" stroke-width=\"1.5\"");
        self.line([x, y, head, y], &style);
        self.line([head - 4.0, y - 3.5, head, y], &style);
        self.line([head - 4.0, y + 3.5, head, y], &style);
    }

    /// Words at a place.
    pub fn text(&mut self, [x, y]: [f64; 2], font: &Font, words: &str) {
        let (x, y, words) = (short(x), short(y), escaped(words));
        self.put(&format!(
            "<text x=\"{x}\" y=\"{y}\" {}>{words}</text>",
            font.attributes()
        ));
    }

    /// The whole file.
    pub fn finish(mut self) -> String {
        self.put("</svg>");
        self.text
    }

    fn put(&mut self, element: &str) {
        writeln!(self.text, "{element}").expect("a string takes any text");
    }
}

fn rectangle(at: [f64; 4]) -> String {
    let [x, y, width, height] = at.map(short);
    format!("x=\"{x}\" y=\"{y}\" width=\"{width}\" height=\"{height}\"")
}

/// The text with every sign that XML takes for its own written out.
pub fn escaped(text: &str) -> String {
    let mut written = String::new();
    for sign in text.chars() {
        match sign {
            '&' => written += "&amp;",
            '<' => written += "&lt;",
            '>' => written += "&gt;",
            '"' => written += "&quot;",
            other => written.push(other),
        }
    }
    written
}

/// A number with one digit after the point at the most.
fn short(number: f64) -> String {
    let text = format!("{number:.1}");
    text.strip_suffix(".0").unwrap_or(&text).to_string()
}
