//! The page's tables: the figures of all processors side by side.

use crate::files::{Line, Processor, NONE};
use crate::layout::{Layout, LAYOUTS, PARTS, TO_GREATEST};
use crate::table::{shown, Table};
use std::fmt::Write;

/// The tables of a part.
pub fn part(processors: &[Processor], part: &str) -> String {
    let mut text = String::new();
    for layout in Layout::all(part) {
        let table = side_by_side(processors, layout);
        // A part with one table needs no title.
        match Layout::all(part).count() {
            1 => writeln!(text, "{table}"),
            _ => writeln!(text, "**{}**\n\n{table}", layout.title),
        }
        .expect("a string takes all");
    }
    text
}

/// A table with the figures of each processor that has the part; a row is named by its words.
fn side_by_side(processors: &[Processor], layout: &Layout) -> Table {
    let mut heads: Vec<String> = layout.words.iter().map(|word| word.to_string()).collect();
    for processor in processors {
        for (turn, &place) in layout.shown.iter().enumerate() {
            let head = layout.figures[place];
            heads.push(match turn {
                0 => format!("{}: {head}", processor.name),
                _ => head.into(),
            });
        }
    }
    let heads: Vec<&str> = heads.iter().map(|head| &**head).collect();
    let mut table = Table::new(&heads, layout.left);
    for words in rows(processors, layout) {
        let mut row: Vec<String> = words.iter().map(|word| shown(word)).collect();
        for processor in processors {
            let figures = processor.figures(layout, &words);
            let figure = |&place: &usize| figures.map_or(NONE.into(), |found| shown(&found[place]));
            row.extend(layout.shown.iter().map(figure));
        }
        table.row(row);
    }
    table
}

/// The words of all rows, each once, in the order of the first processor that has them.
fn rows(processors: &[Processor], layout: &Layout) -> Vec<Vec<String>> {
    let mut rows: Vec<Vec<String>> = Vec::new();
    for Line { words, .. } in processors
        .iter()
        .flat_map(|processor| processor.lines(layout))
    {
        if !rows.contains(words) {
            rows.push(words.clone());
        }
    }
    rows
}

/// What was measured where, and when; and what was not.
pub fn machines(processors: &[Processor]) -> String {
    let heads = [
        "processor",
        "machine",
        "compilers",
        "measured",
        "code",
        "parts",
    ];
    let mut table = Table::new(&heads, heads.len());
    for processor in processors {
        let mut all: Vec<(&[String], Vec<&str>)> = Vec::new();
        for part in &processor.parts {
            match all.iter_mut().find(|(known, _)| *known == part.measured) {
                Some((_, parts)) => parts.push(part.part),
                None => all.push((&part.measured, vec![part.part])),
            }
        }
        for (measured, parts) in all {
            let mut row = vec![processor.name.clone()];
            row.extend_from_slice(measured);
            row.push(match parts.len() {
                count if count == PARTS.len() => "all".into(),
                _ => parts.join(", "),
            });
            table.row(row);
        }
    }
    format!("{table}\n{}", gaps(processors))
}

/// A sentence on what one processor has and another has not, where there is such a thing.
fn gaps(processors: &[Processor]) -> String {
    let mut all = Vec::new();
    for processor in processors {
        let mut missing: Vec<String> = Vec::new();
        let of_tables = LAYOUTS
            .iter()
            .filter_map(|layout| gap(processors, processor, layout));
        for what in of_tables {
            if !missing.contains(&what) {
                missing.push(what);
            }
        }
        if !missing.is_empty() {
            all.push(format!("on {} {}", processor.name, missing.join(", ")));
        }
    }
    match all.is_empty() {
        true => String::new(),
        false => format!(
            "Not measured yet, and `{NONE}` in the tables: {}.\n\n",
            all.join("; ")
        ),
    }
}

/// What of a table this processor has no figures of: the part, some rows, or the ratio to the greatest byte.
fn gap(processors: &[Processor], processor: &Processor, layout: &Layout) -> Option<String> {
    let place = layout.place(TO_GREATEST);
    let mut lines = processor.lines(layout).peekable();
    if lines.peek().is_none() {
        return Some(format!("the part {}", layout.part));
    }
    if lines.any(|line| place.is_some_and(|place| line.figures[place] == NONE)) {
        return Some(format!("`{TO_GREATEST}`"));
    }
    let known = |words: &Vec<String>| processor.figures(layout, words).is_some();
    let whole = rows(processors, layout).iter().all(known);
    (!whole).then(|| format!("some rows of {}", layout.part))
}

/// What the yardsticks take: a row for each n and processor, with the least and the most of all rows under Calls.
pub fn yardsticks(processors: &[Processor]) -> String {
    let heads = [
        "n",
        "processor",
        "greatest byte, ns",
        "sum, ns",
        "greatest byte, instructions",
        "sum, instructions",
    ];
    let mut table = Table::new(&heads, 2);
    let mut all: Vec<&str> = Vec::new();
    for layout in Layout::all("calls") {
        let lines = processors
            .iter()
            .flat_map(|processor| processor.lines(layout));
        for n in lines.filter_map(cells_of) {
            if !all.contains(&n) {
                all.push(n);
            }
        }
    }
    for n in all {
        for processor in processors {
            let of = |part, yardstick| range_of(processor, part, n, yardstick);
            let [first, second] =
                ["calls", "counts"].map(|part| [of(part, "greatest byte,"), of(part, "sum,")]);
            let row = [[n.into(), processor.name.clone()], first, second];
            table.row(row.concat());
        }
    }
    format!("{table}\n")
}

/// n, at the end of the settings that a row begins with.
pub fn cells_of(line: &Line) -> Option<&str> {
    line.words[0].rsplit_once("n = ").map(|(_, n)| n)
}

/// The least and the most of the figure whose head begins so, over a part's rows of n cells.
fn range_of(processor: &Processor, part: &str, n: &str, head: &str) -> String {
    let mut all = Vec::new();
    for layout in Layout::all(part) {
        let place = layout
            .figures
            .iter()
            .position(|name| name.starts_with(head));
        let of_n = |line: &&Line| cells_of(line) == Some(n);
        let lines = processor.lines(layout).filter(of_n);
        all.extend(lines.filter_map(|line| line.figures[place?].parse::<u64>().ok()));
    }
    match (all.iter().min(), all.iter().max()) {
        (Some(least), Some(most)) if least == most => shown(&least.to_string()),
        (Some(least), Some(most)) => {
            let [least, most] = [least, most].map(|number| shown(&number.to_string()));
            format!("{least} to {most}")
        }
        _ => NONE.into(),
    }
}
