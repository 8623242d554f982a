//! The move of the rules' worked numbers, and the four changes of bit 1 after it.

use super::cells::{Boxes, Tone};
use super::sheet::{holder, Index, Shown};
use crate::svg::{Font, Svg, GREY, MINT, ORANGE, SKY};
use crate::Settings;
use std::ops::Range;

const BOXES: Boxes = Boxes {
    width: 18.0,
    height: 30.0,
    digit: 12.0,
};
/// Kind, k, L and n.
const ASKED: [u64; 4] = [1, 4, 2, 28];
/// Where the rows' words, the blocks, the index blocks and the bits begin.
const LEFT: f64 = 24.0;
const BLOCKS: f64 = 214.0;
const INDEXES: f64 = 588.0;
const BITS: f64 = 884.0;
/// Where the rows begin, and how high one is.
const TOP: f64 = 78.0;
const ROW: f64 = 68.0;
const SMALL: Font = Font::MIDDLE.size(10.0);

/// Draws the staged sheet of 28 cells, k = 4 and L = 2, from before the move to four changes after it.
pub fn draw() -> String {
    let mut svg = Svg::new(
        "A move, drawn by second/src/pictures/marked.rs.",
        "A move: the staged sheet of 28 cells before and after the change of bit 3, and four changes of bit 1 after it",
        [960, 510],
    );
    let words = "A move, and four changes after it: staged, k = 4, L = 2, n = 28";
    svg.text([LEFT, 30.0], &Font::START.size(15.0).bold(), words);
    let head = Font::START.size(11.0).bold();
    let [blocks, indexes] = heads(&Shown::erased(ASKED));
    svg.text([BLOCKS, 60.0], &head, &blocks);
    svg.text([INDEXES, 60.0], &head, &indexes);
    svg.text([BITS, 60.0], &head, "bits");
    let mut shown = Shown::erased(ASKED).changed_all(&[(0, 1), (1, 1), (2, 1), (3, 8)]);
    row(
        &mut svg,
        0,
        &shown.at_rest(),
        ["before", "stage 0"].map(String::from),
    );
    for (place, bit) in [3, 1, 1, 1, 1].into_iter().enumerate() {
        let from = shown.stage();
        shown = shown.changed(bit);
        row(&mut svg, place + 1, &shown, told(&shown, bit, from));
    }
    let meanings = [
        (SKY, "holds a bit"),
        (MINT, "free"),
        (GREY, "full"),
        (ORANGE, "raised by this change"),
    ];
    BOXES.legend(&mut svg, [LEFT, 492.0], &meanings);
    svg.finish()
}

/// What stands over the blocks and over the index blocks.
fn heads(shown: &Shown) -> [String; 2] {
    let Settings { k, m, w, .. } = shown.settings;
    let count = shown.index_blocks(1).len();
    [
        format!(
            "{m} blocks of {k} cells, or {} parity blocks of {}",
            2 * m,
            k / 2
        ),
        format!("batch 1: {count} index blocks of {w} cells"),
    ]
}

/// The words of a row: which change it was, and how many levels it raised.
fn told(shown: &Shown, bit: usize, from: usize) -> [String; 2] {
    let name = match shown.stage() == from {
        true => format!("change of bit {bit}"),
        false => format!("change of bit {bit}: a move"),
    };
    let levels = match shown.raised {
        1 => "1 level raised".to_string(),
        raised => format!("{raised} levels raised"),
    };
    [name, levels]
}

fn row(svg: &mut Svg, place: usize, shown: &Shown, [name, levels]: [String; 2]) {
    let y = TOP + ROW * place as f64;
    svg.text([LEFT, y + 13.0], &Font::START.size(12.0).bold(), &name);
    svg.text([LEFT, y + 29.0], &Font::START.size(12.0), &levels);
    match shown.stage() {
        0 => whole(svg, y, shown),
        _ => cut(svg, y, shown),
    }
    for (slot, cells) in shown.index_blocks(1).into_iter().enumerate() {
        let at = [INDEXES + 48.0 * slot as f64, y];
        match shown.stage() {
            0 => BOXES.block(svg, at, shown, cells, Tone::Free),
            _ => {
                let says = meaning(shown.index(cells.clone()));
                labelled(svg, at, shown, cells, says);
            }
        }
    }
    let bits: Vec<String> = shown.bits().iter().map(u8::to_string).collect();
    svg.text([BITS, y + 20.0], &Font::START.size(15.0), &bits.join(" "));
}

/// The colour and the words of an index, or of the parity block that it belongs to.
fn meaning(index: Index) -> (Tone, String) {
    match index {
        Index::Full => (Tone::Over, "full".into()),
        Index::Free => (Tone::Free, "free".into()),
        Index::Bit(bit) => (Tone::Held, format!("bit {bit}")),
    }
}

/// Stage 0: each block with the bit that it holds.
fn whole(svg: &mut Svg, y: f64, shown: &Shown) {
    for j in 0..shown.settings.m {
        let cells = shown.block(j);
        let index = match holder(&shown.settings, &shown.cells[cells.clone()]) {
            Some(bit) => Index::Bit(bit),
            None => Index::Full,
        };
        let at = [place(cells.start), y];
        labelled(svg, at, shown, cells, meaning(index));
    }
    let under = [INDEXES + 138.0, y + BOXES.height + 13.0];
    svg.text(under, &SMALL, "all 0, so the sheet is at stage 0");
}

/// Stage 1: each parity block with the bit that its index block names.
fn cut(svg: &mut Svg, y: f64, shown: &Shown) {
    let blocks = shown.index_blocks(1);
    for parity in shown.parity_blocks(1) {
        let index = match parity.slot {
            Some(slot) => shown.index(blocks[slot].clone()),
            None => Index::Full,
        };
        let at = [place(parity.cells.start), y];
        labelled(svg, at, shown, parity.cells, meaning(index));
    }
}

/// Where a cell of the 4 blocks stands; halves stand apart at stage 1 by the room of a frame.
fn place(cell: usize) -> f64 {
    BLOCKS + BOXES.width * cell as f64 + (14 * (cell / 4) + 5 * (cell / 2 % 2)) as f64
}

fn labelled(
    svg: &mut Svg,
    at: [f64; 2],
    shown: &Shown,
    cells: Range<usize>,
    (tone, says): (Tone, String),
) {
    let middle = at[0] + BOXES.width * cells.len() as f64 / 2.0;
    BOXES.block(svg, at, shown, cells, tone);
    svg.text([middle, at[1] + BOXES.height + 13.0], &SMALL, &says);
}
