//! A plain sheet in use: full, active and empty blocks, spare cells, and what the next change of each bit raises.

use super::cells::{Boxes, Tone};
use super::sheet::{holder, Shown};
use crate::svg::{Font, Svg, GREY, ORANGE, SKY};

const BOXES: Boxes = Boxes {
    width: 21.0,
    height: 40.0,
    digit: 13.0,
};
/// Where the first block begins, and how far it is from one block to the next.
const LEFT: f64 = 28.0;
const PITCH: f64 = 126.0;
const TOP: f64 = 72.0;
const SMALL: Font = Font::START.size(12.0);

/// Draws a sheet of 27 cells for 4 bits, L = 2, after 17 changes.
pub fn draw() -> String {
    let sheet = Shown::erased([0, 4, 2, 27]).changed_all(&[(1, 11), (0, 1), (3, 5)]);
    let mut svg = Svg::new(
        "A plain sheet in use, drawn by second/src/pictures/plain.rs.",
        "A plain sheet in use: 4 bits on 27 cells, with full, active and empty blocks and spare cells",
        [910, 300],
    );
    let words =
        "A plain sheet, k = 4, L = 2, n = 27: bit 1 changed 11 times, bit 0 once, bit 3 five times";
    svg.text([LEFT, 30.0], &Font::START.size(15.0).bold(), words);
    for j in 0..sheet.settings.m {
        block(&mut svg, j, &sheet);
    }
    spare(&mut svg, &sheet);
    for bit in 0..sheet.settings.k {
        let at = [LEFT, 180.0 + 19.0 * bit as f64];
        svg.text(at, &SMALL, &outlook(&sheet, bit));
    }
    svg.text([LEFT, 256.0], &SMALL, &left(&sheet));
    let meanings = [
        (SKY, "active"),
        (ORANGE, "raised by the last change"),
        (GREY, "full"),
    ];
    BOXES.legend(&mut svg, [LEFT, 284.0], &meanings);
    svg.finish()
}

/// Block j with its number above it, and its state and what it holds below.
fn block(svg: &mut Svg, j: usize, sheet: &Shown) {
    let (x, cells) = (LEFT + PITCH * j as f64, sheet.block(j));
    let weight = sheet.weight(cells.clone());
    let full = sheet.is_full(&sheet.cells[cells.clone()]);
    let (tone, state, held) = match holder(&sheet.settings, &sheet.cells[cells.clone()]) {
        Some(bit) => {
            let state = format!("active: bit {bit}");
            let held = format!("weight {weight}, value {}", sheet.bits()[bit]);
            (Tone::Held, state, held)
        }
        None if full => (Tone::Over, "full".into(), format!("weight {weight}")),
        None => (Tone::Held, "empty".into(), format!("weight {weight}")),
    };
    let (first, last) = (cells.start, cells.end - 1);
    let above = format!("block {j}: cells {first} to {last}");
    svg.text([x, TOP - 6.0], &Font::START.size(10.0), &above);
    BOXES.block(svg, [x, TOP], sheet, cells, tone);
    let below = TOP + BOXES.height;
    svg.text([x, below + 17.0], &SMALL.bold(), &state);
    svg.text([x, below + 34.0], &SMALL, &held);
}

fn spare(svg: &mut Svg, sheet: &Shown) {
    let x = LEFT + PITCH * sheet.settings.m as f64;
    let cells = sheet.settings.m * sheet.settings.k..sheet.settings.n;
    let above = format!("cells {} to {}", cells.start, cells.end - 1);
    svg.text([x, TOP - 6.0], &Font::START.size(10.0), &above);
    BOXES.block(svg, [x, TOP], sheet, cells, Tone::Over);
    let below = TOP + BOXES.height;
    svg.text([x, below + 17.0], &SMALL.bold(), "spare");
    svg.text([x, below + 34.0], &SMALL, "always 0");
}

/// What a bit reads, and which cell its next change raises.
fn outlook(sheet: &Shown, bit: usize) -> String {
    let next = sheet.changed(bit);
    let differs = |&cell: &usize| next.cells[cell] != sheet.cells[cell];
    let cell = (0..next.cells.len())
        .find(differs)
        .expect("a change raises a cell");
    let j = cell / sheet.settings.k;
    let (value, next) = (
        sheet.bits()[bit],
        format!("its next change raises cell {cell}"),
    );
    match sheet.weight(sheet.block(j)) {
        0 => format!(
            "bit {bit} has no active block and reads {value}; {next} and so begins block {j}"
        ),
        _ => format!("bit {bit} is held by block {j} and reads {value}; {next}"),
    }
}

/// How many changes are left.
fn left(sheet: &Shown) -> String {
    let (sum, guarantee) = (
        sheet.weight(0..sheet.settings.n),
        sheet.settings.guarantee(),
    );
    let left = guarantee - sum;
    format!("The levels sum to {sum}, one for each change. The guarantee is {guarantee}, so {left} more changes are certain.")
}
