//! The page's first five lines, worked out from the files.

use crate::files::{Line, Processor};
use crate::layout::{Layout, LAYOUTS, TO_GREATEST, TO_SECOND, TO_SUM};
use crate::sizes::Size;
use crate::table::shown;

/// The settings that the lines on reading and change speak of.
const SHAPE: &str = "k = 64, L = 15, n = 16,384";

/// The yardsticks, and how a sentence says them.
const YARDSTICKS: [(&str, &str); 3] = [
    (TO_GREATEST, "times the greatest byte"),
    (TO_SUM, "times the sum"),
    (TO_SECOND, "times the second program"),
];

/// The five lines.
pub fn lines(processors: &[Processor], sizes: &[Size]) -> [String; 5] {
    [
        format!(
            "- **Reading** at {SHAPE} takes {}.",
            each(processors, |one| ratios(one, "Reading"))
        ),
        format!(
            "- **A change** of one bit there takes {}.",
            each(processors, |one| ratios(one, "Change of one bit"))
        ),
        format!(
            "- **The slowest change** of all tables takes {}.",
            each(processors, slowest)
        ),
        format!(
            "- **The program**, fed {}, does {}.",
            inputs(processors),
            each(processors, program)
        ),
        format!("- **On a controller** it takes {}.", on_controllers(sizes)),
    ]
}

/// What is said of each processor, where there is something to say.
fn each(processors: &[Processor], say: impl Fn(&Processor) -> Option<String>) -> String {
    let said = processors
        .iter()
        .filter_map(|one| say(one).map(|said| format!("on {} {said}", one.name)));
    said.collect::<Vec<String>>().join("; ")
}

/// Words, the last after an "and".
fn listed(mut words: Vec<String>) -> String {
    let last = words.pop().unwrap_or_default();
    match words.is_empty() {
        true => last,
        false => format!("{} and {last}", words.join(", ")),
    }
}

/// The least and the most of each ratio, over all rows of the shape.
fn ratios(processor: &Processor, title: &str) -> Option<String> {
    let layout = Layout::of("calls", title)?;
    let of_shape = |line: &&Line| line.words[0].ends_with(SHAPE);
    let range = |(head, said): (&str, &str)| {
        let place = layout.place(head)?;
        let lines = processor.lines(layout).filter(of_shape);
        let figures = lines.map(|line| line.figures[place].parse::<f64>().ok());
        let figures: Vec<f64> = figures.collect::<Option<_>>()?;
        let least = figures.iter().copied().reduce(f64::min)?;
        let most = figures.iter().copied().reduce(f64::max)?;
        Some(format!("{least:.2} to {most:.2} {said}"))
    };
    let said: Vec<String> = YARDSTICKS.into_iter().filter_map(range).collect();
    (!said.is_empty()).then(|| listed(said))
}

/// The change that takes the longest, of calls, moves and runs: its time, its ratios and what it is.
fn slowest(processor: &Processor) -> Option<String> {
    let changes = LAYOUTS.iter().filter(|layout| {
        layout.part != "counts" && layout.words[0] == "settings" && layout.place(TO_SUM).is_some()
    });
    let lines = changes.flat_map(|layout| processor.lines(layout).map(move |line| (layout, line)));
    let time = |line: &Line| line.figures[0].parse::<u64>().unwrap_or(0);
    let changes = lines.filter(|(layout, line)| is_change(layout, line));
    let (layout, line) = changes.max_by_key(|(_, line)| time(line))?;
    let of = |(head, said): (&str, &str)| {
        let ratio = &line.figures[layout.place(head)?];
        ratio.parse::<f64>().ok().map(|_| format!("{ratio} {said}"))
    };
    let ratios: Vec<String> = YARDSTICKS[..2].iter().copied().filter_map(of).collect();
    let figure = shown(&line.figures[0]);
    Some(format!(
        "{figure} ns, {} ({}: {})",
        listed(ratios),
        line.words[0],
        what(layout, line)
    ))
}

/// Whether a row is of a change.
fn is_change(layout: &Layout, line: &Line) -> bool {
    match layout.title {
        "Reading" | "Erase" => false,
        "A reading and a change on the sheet after it" => line.words[2] == "change",
        _ => true,
    }
}

/// What a change is, in the words of its row.
fn what(layout: &Layout, line: &Line) -> String {
    match (layout.title, &line.words[..], &line.figures[..]) {
        ("The move", [_, _, from, to], _) => format!("a move, stage {from} to {to}"),
        ("The slowest change", _, [.., which]) => which.clone(),
        (_, [_, stage, _], _) => format!("at stage {stage}"),
        _ => "the median of a run".into(),
    }
}

/// The table of the program.
fn program_table() -> &'static Layout {
    Layout::of("programs", "The program").expect("a table of the page")
}

/// The inputs of the program, of which each processor then has the speeds in the same order.
fn inputs(processors: &[Processor]) -> String {
    let lines = |one: &Processor| {
        one.lines(program_table())
            .map(|line| format!("\"{}\"", line.words[0]))
            .collect()
    };
    let all: Vec<Vec<String>> = processors.iter().map(lines).collect();
    let whole: Vec<Vec<String>> = all.into_iter().filter(|words| !words.is_empty()).collect();
    assert!(
        whole.windows(2).all(|two| two[0] == two[1]),
        "the same inputs everywhere"
    );
    whole.into_iter().next().map(listed).unwrap_or_default()
}

/// Records a second of each input, and the shares of the second program's time.
fn program(processor: &Processor) -> Option<String> {
    let each =
        |say: fn(&Line) -> String| listed(processor.lines(program_table()).map(say).collect());
    processor.lines(program_table()).next()?;
    let speeds = each(|line| shown(&line.figures[0]));
    let shares = each(|line| line.figures[2].clone());
    Some(format!(
        "{speeds} records a second, in {shares} times the second program's time"
    ))
}

/// Bytes of code, constants, data and stack on the targets that have no system.
fn on_controllers(sizes: &[Size]) -> String {
    let bare = sizes.iter().filter(|size| !size.target.contains("linux"));
    let say = |size: &Size| {
        let deepest = size.stacks.iter().max().expect("a function");
        let [code, constants, data, deepest] =
            [size.code, size.constants, size.data, *deepest].map(|bytes| shown(&bytes.to_string()));
        format!("{code} bytes of code, {constants} of constants and {data} of writable data, and at most {deepest} of stack for {}", size.target)
    };
    let said = bare.map(say).collect::<Vec<String>>().join("; ");
    format!("{said}; what the C library's functions take comes on top")
}
