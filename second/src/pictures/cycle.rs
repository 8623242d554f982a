//! One block's cycle: every step of one bit's block from empty to full.

use super::cells::{Boxes, Tone};
use super::sheet::Shown;
use crate::svg::{Font, Svg, BLUE, GREY, ORANGE, SKY, VERMILION};

const BIT: usize = 1;
const BOXES: Boxes = Boxes {
    width: 18.0,
    height: 44.0,
    digit: 13.0,
};
/// Where the first block begins, and how far it is from one block to the next.
const LEFT: f64 = 28.0;
const PITCH: f64 = 98.0;
const TOP: f64 = 74.0;

/// Draws the steps of bit 1's block, k = 4 and L = 2.
pub fn draw() -> String {
    let erased = Shown::erased([0, 4, 2, 16]);
    let full = erased.settings.k * erased.settings.top;
    let mut steps = vec![erased];
    for _ in 0..full {
        steps.push(steps[steps.len() - 1].changed(BIT));
    }
    let mut svg = Svg::new(
        "One block's cycle, drawn by second/src/pictures/cycle.rs.",
        "One block's cycle: bit 1 of 4 with top level 2, from empty to full",
        [910, 190],
    );
    let words = format!(
        "The cycle of bit {BIT}, k = 4, L = 2: start cell {BIT}, then on to the right and round"
    );
    svg.text([LEFT, 30.0], &Font::START.size(15.0).bold(), &words);
    for (place, step) in steps.iter().enumerate() {
        one_step(&mut svg, place, step, full);
    }
    let raised = (ORANGE, "raised by this step");
    let meanings = [(SKY, "levels before"), raised, (GREY, "full")];
    BOXES.legend(&mut svg, [LEFT, 174.0], &meanings);
    svg.finish()
}

/// A block with its cells' numbers above it, and its weight and value below.
fn one_step(svg: &mut Svg, place: usize, step: &Shown, full: usize) {
    let x = LEFT + PITCH * place as f64;
    let block = step.block(0);
    let (weight, middle) = (step.weight(block.clone()), x + 2.0 * BOXES.width);
    for cell in block.clone() {
        let font = Font::MIDDLE.size(10.0);
        let font = match cell == BIT {
            true => font.bold().colour(VERMILION),
            false => font.colour("#777777"),
        };
        let at = [x + BOXES.width * (cell as f64 + 0.5), TOP - 5.0];
        svg.text(at, &font, &cell.to_string());
    }
    let tone = match weight == full as u64 {
        true => Tone::Over,
        false => Tone::Held,
    };
    BOXES.block(svg, [x, TOP], step, block, tone);
    if place < full {
        let from = x + 4.0 * BOXES.width + 5.0;
        svg.arrow([from, TOP + 22.0], from + 16.0, BLUE);
    }
    let below = TOP + BOXES.height;
    let name = match place {
        0 => "empty, weight 0".to_string(),
        _ if place == full => format!("full, weight {weight}"),
        _ => format!("weight {weight}"),
    };
    let value = format!("value {}", step.bits()[BIT]);
    svg.text([middle, below + 17.0], &Font::MIDDLE.size(11.0), &name);
    svg.text(
        [middle, below + 33.0],
        &Font::MIDDLE.size(11.0).bold(),
        &value,
    );
}
