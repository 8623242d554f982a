//! The m blocks at stage 0, cut in halves at stage 1 and again at stage 2, with their index blocks.

use super::cells::{Boxes, Tone};
use super::sheet::{holder, Index, Shown};
use crate::svg::{Font, Svg, BLUE, GREEN, GREY, MINT, SKY};
use crate::Settings;
use std::ops::Range;

const BOXES: Boxes = Boxes {
    width: 12.0,
    height: 36.0,
    digit: 9.5,
};
const INDEX: Boxes = Boxes {
    width: 16.0,
    height: 39.0,
    digit: 12.0,
};
const LEFT: f64 = 24.0;
/// How far it is from one index block to the next.
const PITCH: f64 = 66.0;
const SMALL: Font = Font::MIDDLE.size(10.0);

/// Draws a sheet of 8 bits, L = 3, n = 120, before its first move and after its first and second.
pub fn draw() -> String {
    let mut svg = Svg::new(
        "Blocks cut in halves, drawn by second/src/pictures/stages.rs.",
        "The 8 blocks of a staged sheet at stage 0, as 16 parity blocks at stage 1 and as 32 at stage 2, with the index blocks of the live ones",
        [960, 540],
    );
    let [zero, one, two] = moments();
    let words = title(&zero);
    svg.text([LEFT, 30.0], &Font::START.size(15.0).bold(), &words);
    whole(&mut svg, 68.0, &zero);
    cut(&mut svg, 156.0, &one);
    cut(&mut svg, 344.0, &two);
    let meanings = [
        (SKY, "live, holds a bit"),
        (MINT, "live, free"),
        (GREY, "full"),
    ];
    BOXES.legend(&mut svg, [LEFT, 522.0], &meanings);
    svg.finish()
}

/// The settings in words.
fn title(shown: &Shown) -> String {
    let Settings {
        k, top, n, m, s, w, ..
    } = shown.settings;
    let blocks = shown.index_blocks(1).len();
    format!("A staged sheet, k = {k}, L = {top}, n = {n}: m = {m}, s = {s}, batches of {blocks} index blocks of w = {w} cells")
}

/// The sheet before its first move, straight after it, and straight after its second.
fn moments() -> [Shown; 3] {
    let counts = [
        (3, 24),
        (0, 14),
        (1, 5),
        (2, 1),
        (3, 9),
        (4, 20),
        (5, 2),
        (6, 17),
    ];
    let zero = Shown::erased([1, 8, 3, 120]).changed_all(&counts);
    let one = zero.changed(7);
    let mut two = one.changed_all(&[(0, 2), (3, 1), (5, 3)]);
    while two.stage() == 1 {
        two = two.changed(7);
    }
    [zero, one, two].map(|shown| shown.at_rest())
}

/// Where a cell of the m blocks stands at a stage: parity blocks stand apart within their block.
fn place(stage: usize, cell: usize) -> f64 {
    let (block, within) = (cell / 8, cell % 8);
    let (cuts, rooms) = (within / (8 >> stage), (1 << stage) - 1);
    let first = 115 * block + 4 * cuts + (12 - 4 * rooms) / 2;
    LEFT + first as f64 + BOXES.width * within as f64
}

/// The middle of a block of these cells.
fn middle(stage: usize, cells: &Range<usize>) -> f64 {
    (place(stage, cells.start) + place(stage, cells.end - 1) + BOXES.width) / 2.0
}

fn heading(svg: &mut Svg, y: f64, words: &str) {
    svg.text([LEFT, y - 8.0], &Font::START.size(13.0).bold(), words);
}

/// Stage 0: the blocks as they are, each with what it holds.
fn whole(svg: &mut Svg, y: f64, shown: &Shown) {
    let Settings { k, m, .. } = shown.settings;
    let changes = shown.changes;
    let words =
        format!("Stage 0, after {changes} changes: {m} blocks of {k} cells; all index cells are 0");
    heading(svg, y, &words);
    for j in 0..m {
        let cells = shown.block(j);
        let held = holder(&shown.settings, &shown.cells[cells.clone()]);
        let (tone, name) = match held {
            Some(bit) => (Tone::Held, format!("bit {bit} = {}", shown.bits()[bit])),
            None => (Tone::Over, "full".to_string()),
        };
        let under = [middle(0, &cells), y + BOXES.height + 14.0];
        BOXES.block(svg, [place(0, cells.start), y], shown, cells, tone);
        svg.text(under, &SMALL, &name);
    }
}

/// A later stage: the parity blocks, the index blocks below them, and a line between the two of a pair.
fn cut(svg: &mut Svg, y: f64, shown: &Shown) {
    let (stage, below) = (shown.stage(), y + BOXES.height + 62.0);
    let (blocks, parity) = (shown.index_blocks(stage), shown.parity_blocks(stage));
    let length = shown.settings.k >> stage;
    let live = parity.iter().filter(|block| block.slot.is_some()).count();
    let words = format!(
        "Stage {stage}, after {} changes: {} parity blocks of {length} cells, {live} of them live; below, batch {stage}",
        shown.changes,
        parity.len()
    );
    heading(svg, y, &words);
    for block in parity {
        let tone = match block.slot.map(|slot| shown.index(blocks[slot].clone())) {
            None => Tone::Over,
            Some(Index::Bit(_)) => Tone::Held,
            Some(_) => Tone::Free,
        };
        if let Some(slot) = block.slot {
            let ends = [middle(stage, &block.cells), y, slot_place(slot), below];
            tie(svg, ends, tone);
        }
        let at = [place(stage, block.cells.start), y];
        BOXES.block(svg, at, shown, block.cells, tone);
    }
    for (slot, cells) in blocks.into_iter().enumerate() {
        index(svg, [slot_place(slot), below], shown, cells);
    }
}

fn slot_place(slot: usize) -> f64 {
    LEFT + 8.0 + PITCH * slot as f64
}

/// The line from the middle of a parity block to its index block.
fn tie(svg: &mut Svg, [from, y, slot, below]: [f64; 4], tone: Tone) {
    let colour = match tone {
        Tone::Free => GREEN,
        _ => BLUE,
    };
    let ends = [
        from,
        y + BOXES.height + 1.0,
        slot + INDEX.width,
        below - 1.0,
    ];
    svg.line(ends, &format!("stroke=\"{colour}\" stroke-width=\"1.2\""));
}

/// An index block with what it says.
fn index(svg: &mut Svg, [x, y]: [f64; 2], shown: &Shown, cells: Range<usize>) {
    let (tone, says, value) = match shown.index(cells.clone()) {
        Index::Full => (Tone::Over, "full".to_string(), String::new()),
        Index::Free => (Tone::Free, "free".to_string(), String::new()),
        Index::Bit(bit) => {
            let value = format!("= {}", shown.bits()[bit]);
            (Tone::Held, format!("bit {bit}"), value)
        }
    };
    INDEX.block(svg, [x, y], shown, cells, tone);
    let below = y + INDEX.height + 13.0;
    let words = format!("{says} {value}");
    svg.text([x + INDEX.width, below], &SMALL, words.trim_end());
}
