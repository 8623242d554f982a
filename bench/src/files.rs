//! The files of figures: one for each part and processor, a line for each row.

use crate::layout::{Layout, PARTS};
use std::fmt::Write;
use std::fs;
use std::path::Path;

/// What stands for a figure that was not measured.
pub const NONE: &str = "-";

/// A row: its table, the words that name it, and its figures.
#[derive(Clone, Debug, PartialEq, Eq)]
pub struct Line {
    /// The table's title.
    pub title: String,
    /// The words.
    pub words: Vec<String>,
    /// The figures, as the file has them: numbers without commas.
    pub figures: Vec<String>,
}

impl Line {
    /// A row of a table.
    pub fn new(title: &str, words: Vec<String>, figures: Vec<String>) -> Line {
        let title = title.into();
        Line {
            title,
            words,
            figures,
        }
    }
}

/// A part as it was measured on a processor.
#[derive(Clone, Debug)]
pub struct Part {
    /// Which part.
    pub part: &'static str,
    /// Machine, compilers, date and code.
    pub measured: Vec<String>,
    /// The rows.
    pub lines: Vec<Line>,
}

/// All that was measured on a processor.
#[derive(Clone, Debug)]
pub struct Processor {
    /// Its name, as the page has it.
    pub name: String,
    /// Its parts.
    pub parts: Vec<Part>,
}

impl Processor {
    /// The rows of a table.
    pub fn lines(&self, layout: &Layout) -> impl Iterator<Item = &Line> {
        let (part, title) = (layout.part, layout.title);
        let parts = self.parts.iter().filter(move |found| found.part == part);
        parts
            .flat_map(|part| &part.lines)
            .filter(move |line| line.title == title)
    }

    /// The figures of the row that these words name.
    pub fn figures(&self, layout: &Layout, words: &[String]) -> Option<&[String]> {
        let line = self.lines(layout).find(|line| line.words == words);
        line.map(|line| &*line.figures)
    }
}

/// The text of a part's file.
pub fn text(part: &str, measured: &str, lines: &[Line]) -> String {
    let known = |line: &Line| Layout::of(part, &line.title).is_some();
    assert!(lines.iter().all(known), "a table for each row");
    let mut text = format!("# {measured}\n");
    for layout in Layout::all(part) {
        let heads = [&[layout.title], layout.words, layout.figures].concat();
        writeln!(text, "# {}", heads.join("\t")).expect("a string takes all");
        for line in lines.iter().filter(|line| line.title == layout.title) {
            let cells = [
                std::slice::from_ref(&line.title),
                &line.words,
                &line.figures,
            ]
            .concat();
            assert_eq!(cells.len(), heads.len(), "a cell for each head");
            writeln!(text, "{}", cells.join("\t")).expect("a string takes all");
        }
    }
    text
}

/// What a part's file says.
fn parse(part: &'static str, text: &str) -> Result<Part, String> {
    let machine = text.lines().next().and_then(|line| line.strip_prefix("# "));
    let machine = machine.ok_or("no line on the machine")?;
    let mut lines = Vec::new();
    for line in text.lines().filter(|line| !line.starts_with('#')) {
        let cells: Vec<String> = line.split('\t').map(String::from).collect();
        let layout = Layout::of(part, &cells[0]).ok_or(format!("no such table: {line}"))?;
        if cells.len() != 1 + layout.words.len() + layout.figures.len() {
            return Err(format!("not a row of its table: {line}"));
        }
        let (words, figures) = cells[1..].split_at(layout.words.len());
        lines.push(Line::new(&cells[0], words.to_vec(), figures.to_vec()));
    }
    Ok(Part {
        part,
        measured: machine.split('\t').map(String::from).collect(),
        lines,
    })
}

/// The processors of a folder, each with the parts that it has files of.
pub fn processors(folder: &Path) -> Vec<Processor> {
    let mut found = Vec::new();
    for entry in fs::read_dir(folder).expect("the folder of figures") {
        let path = entry.expect("the folder of figures").path();
        if !path.is_dir() {
            continue;
        }
        let mut parts = Vec::new();
        for part in PARTS {
            if let Ok(text) = fs::read_to_string(path.join(part).with_extension("tsv")) {
                parts.push(parse(part, &text).unwrap_or_else(|why| panic!("{part}: {why}")));
            }
        }
        let name = path.file_name().expect("a name").to_string_lossy();
        let name = name.replace('_', "-");
        if !parts.is_empty() {
            found.push(Processor { name, parts });
        }
    }
    found.sort_by(|one, other| one.name.cmp(&other.name));
    found
}
