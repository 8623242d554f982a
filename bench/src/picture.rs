//! The picture of endurance, as SVG: plain and staged side by side, each count as a share of n L.

use crate::measured::Measured;
use crate::places::kind_name;
use crate::table::grouped;
use second::svg::{width, Font, Svg, BLUE, GREEN, INK, ORANGE, PALE, VERMILION};
use second::Settings;

const WIDTH: usize = 960;
/// Where the first panel begins, how wide a panel is, and the room between both.
const LEFT: f64 = 150.0;
const PANEL: f64 = 360.0;
const GAP: f64 = 60.0;
/// Where the rows begin, and how high a row and one of its bars are.
const TOP: f64 = 100.0;
const ROW: f64 = 84.0;
const BAR: f64 = 16.0;
/// The size of a bar's count.
const COUNT: f64 = 11.0;

/// A row's bars: name, colour, the colour of words on it, and count.
type Bar = (
    &'static str,
    &'static str,
    &'static str,
    fn(&Measured) -> u64,
);

const BARS: [Bar; 4] = [
    ("guarantee", BLUE, "#ffffff", |measured| measured.guarantee),
    ("adversary", VERMILION, "#000000", |measured| {
        measured.adversary
    }),
    ("random bits", GREEN, "#000000", |measured| measured.random),
    ("one bit", ORANGE, "#000000", |measured| measured.one_bit),
];

/// Draws all that was measured.
pub fn draw(all: &[Measured]) -> String {
    let shapes = shapes(all);
    let bottom = TOP + ROW * shapes.len() as f64;
    let mut svg = Svg::new(
        "Endurance of plain and staged sheets, drawn by bench/src/picture.rs.",
        "Endurance of plain and staged sheets",
        [WIDTH, bottom as usize + 62],
    );
    legend(&mut svg);
    for kind in [0, 1] {
        axis(&mut svg, kind, bottom);
    }
    for (row, shape) in shapes.iter().enumerate() {
        label(&mut svg, row, shape);
        for kind in [0, 1] {
            let is_it = |measured: &&Measured| {
                shape_of(measured) == *shape && measured.settings.kind == kind
            };
            bars(&mut svg, row, kind, all.iter().find(is_it));
        }
    }
    let middle = LEFT + PANEL + GAP / 2.0;
    let words = "changes accepted from an erased sheet to the first Erase, as a share of n L";
    svg.text([middle, bottom + 46.0], &Font::MIDDLE, words);
    svg.finish()
}

/// The shapes in the order of the file, each once.
fn shapes(all: &[Measured]) -> Vec<[usize; 3]> {
    let mut shapes: Vec<[usize; 3]> = all.iter().map(shape_of).collect();
    shapes.dedup();
    shapes
}

fn shape_of(measured: &Measured) -> [usize; 3] {
    let Settings { k, top, n, .. } = measured.settings;
    [k, top, n]
}

/// What each colour and the line mean.
fn legend(svg: &mut Svg) {
    let mut x = LEFT;
    for (name, colour, _, _) in BARS {
        svg.rect([x, 22.0, 14.0, 14.0], &format!("fill=\"{colour}\""));
        svg.text([x + 20.0, 34.0], &Font::START, name);
        x += (56 + 8 * name.len()) as f64;
    }
    svg.line([x + 7.0, 20.0, x + 7.0, 38.0], LIMIT);
    let words = "limit of what any code can guarantee";
    svg.text([x + 20.0, 34.0], &Font::START, words);
}

const LIMIT: &str = "stroke=\"#000000\" stroke-width=\"2.5\"";

/// A panel's name, its lines and their shares.
fn axis(svg: &mut Svg, kind: usize, bottom: f64) {
    let x = panel(kind);
    let title = Font::START.size(15.0).bold();
    svg.text([x, 70.0], &title, kind_name(kind));
    for percent in (0..=100).step_by(20) {
        let at = x + PANEL * f64::from(percent) / 100.0;
        let style = format!("stroke=\"{PALE}\" stroke-width=\"1\"");
        svg.line([at, TOP - 14.0, at, bottom], &style);
        svg.text([at, bottom + 18.0], &Font::MIDDLE, &format!("{percent}%"));
    }
}

/// Where a row begins.
fn row_top(row: usize) -> f64 {
    TOP + ROW * row as f64
}

/// A row's settings.
fn label(svg: &mut Svg, row: usize, [k, top, n]: &[usize; 3]) {
    let (x, y) = (LEFT - 16.0, row_top(row));
    svg.text([x, y + 28.0], &Font::END, &format!("k = {k}, L = {top}"));
    let cells = format!("n = {}", grouped(*n as u64));
    svg.text([x, y + 45.0], &Font::END, &cells);
}

/// A row's bars in one panel, and the line of the limit over them.
fn bars(svg: &mut Svg, row: usize, kind: usize, measured: Option<&Measured>) {
    let (x, y) = (panel(kind), row_top(row));
    let Some(measured) = measured else {
        let at = [x + 8.0, y + 37.0];
        return svg.text(at, &Font::START, "not accepted for this kind");
    };
    let limit = x + PANEL * share(measured, measured.limit);
    for (place, bar) in BARS.iter().enumerate() {
        one_bar(svg, [x, y + BAR * place as f64], limit, measured, bar);
    }
    let last = y + BAR * BARS.len() as f64 + 3.0;
    svg.line([limit, y - 4.0, limit, last], LIMIT);
}

fn share(measured: &Measured, count: u64) -> f64 {
    count as f64 / measured.levels as f64
}

/// A bar with its count at its end, or before the limit's line where the bar goes past it.
fn one_bar(svg: &mut Svg, [x, y]: [f64; 2], limit: f64, measured: &Measured, bar: &Bar) {
    let (name, colour, words, count) = bar;
    let count = count(measured);
    let share = share(measured, count);
    let long = PANEL * share;
    let told = format!("{} ({:.2}%)", grouped(count), 100.0 * share);
    let at = [x, y, long, BAR - 1.0];
    let style = format!("fill=\"{colour}\"");
    svg.told_rect(at, &style, &format!("{name}: {told}"));
    let end = (x + long).min(limit) - 5.0;
    let baseline = y + BAR - 4.0;
    let fits = width(&told, COUNT) + 4.0 < end - x;
    let (place, font) = match fits {
        true => (end, Font::END.colour(words)),
        false => ((x + long).max(limit) + 5.0, Font::START.colour(INK)),
    };
    svg.text([place, baseline], &font.size(COUNT), &told);
}

/// Where a kind's panel begins.
fn panel(kind: usize) -> f64 {
    LEFT + kind as f64 * (PANEL + GAP)
}
