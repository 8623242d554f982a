//! Cells as boxes that fill with their level, and frames around blocks of them.

use super::sheet::Shown;
use crate::svg::{width, Font, Svg, GREY, MINT, ORANGE, SKY};
use std::ops::Range;

/// How cells are drawn: a cell's width and height, and the size of its number.
pub struct Boxes {
    /// The width of a cell.
    pub width: f64,
    /// The height of a cell at the top level.
    pub height: f64,
    /// The size of the number in it.
    pub digit: f64,
}

/// What colour a block's levels have.
#[derive(Clone, Copy)]
pub enum Tone {
    /// It holds a bit.
    Held,
    /// It is at no bit's service yet.
    Free,
    /// Nothing goes into it any more.
    Over,
}

impl Tone {
    /// The colour of its levels.
    pub fn colour(self) -> &'static str {
        match self {
            Tone::Held => SKY,
            Tone::Free => MINT,
            Tone::Over => GREY,
        }
    }
}

impl Boxes {
    /// A block: its cells from left to right, with what the last change raised in a colour of its
    /// own, and a frame around them.
    pub fn block(
        &self,
        svg: &mut Svg,
        at: [f64; 2],
        shown: &Shown,
        cells: Range<usize>,
        tone: Tone,
    ) {
        let mut x = at[0];
        let count = cells.len() as f64;
        for cell in cells {
            self.cell(svg, [x, at[1]], shown, cell, tone);
            x += self.width;
        }
        let frame = [at[0], at[1], count * self.width, self.height];
        svg.rect(
            frame,
            "fill=\"none\" stroke=\"#222222\" stroke-width=\"1.5\"",
        );
    }

    /// The number stands in the lowest level's part, so that no edge of a fill crosses it.
    fn cell(&self, svg: &mut Svg, [x, y]: [f64; 2], shown: &Shown, cell: usize, tone: Tone) {
        let unit = self.height / shown.settings.top as f64;
        let [before, level] = [shown.before[cell], shown.cells[cell]];
        let bottom = y + self.height;
        let mut fill = |from: u8, to: u8, colour: &str| {
            let high = unit * f64::from(to - from);
            let at = [x, bottom - unit * f64::from(to), self.width, high];
            svg.rect(at, &format!("fill=\"{colour}\""));
        };
        if before > 0 {
            fill(0, before, tone.colour());
        }
        if level > before {
            fill(before, level, ORANGE);
        }
        let outline = "fill=\"none\" stroke=\"#777777\" stroke-width=\"0.7\"";
        svg.rect([x, y, self.width, self.height], outline);
        let baseline = bottom - unit / 2.0 + 0.36 * self.digit;
        let middle = [x + self.width / 2.0, baseline];
        let font = Font::MIDDLE.size(self.digit);
        svg.text(middle, &font, &level.to_string());
    }

    /// The line that says what the colours mean.
    pub fn legend(&self, svg: &mut Svg, [mut x, y]: [f64; 2], meanings: &[(&str, &str)]) {
        for (colour, words) in meanings {
            svg.rect(
                [x, y - 10.0, 12.0, 12.0],
                &format!("fill=\"{colour}\" stroke=\"#777777\" stroke-width=\"0.7\""),
            );
            svg.text([x + 18.0, y], &Font::START.size(12.0), words);
            x += 42.0 + width(words, 12.0);
        }
    }
}
