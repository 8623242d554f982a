//! Code, constants, data, stack and needs of the archives, from the file that bench/sizes.sh writes.

use crate::table::{shown, Table};
use std::fs;
use std::path::Path;

/// The functions whose stack is known, in the order of the file.
const FUNCTIONS: [&str; 5] = ["settings", "erase", "read", "change", "version"];

/// The archive for one target.
#[derive(Clone, Debug)]
pub struct Size {
    /// The target.
    pub target: String,
    options: String,
    /// Bytes of code.
    pub code: u64,
    /// Bytes of constants.
    pub constants: u64,
    /// Bytes of writable data.
    pub data: u64,
    /// The deepest stack of each function, in bytes.
    pub stacks: [u64; 5],
    /// How many frames of the one function that may call itself are in them.
    frames: u64,
    needs: String,
}

/// The line on compiler and code, and the archives; none where there is no such file.
pub fn parse(folder: &Path) -> (String, Vec<Size>) {
    let text = fs::read_to_string(folder.join("sizes.tsv")).unwrap_or_default();
    let first = text.lines().next().and_then(|line| line.strip_prefix("# "));
    let lines = text.lines().filter(|line| !line.starts_with('#'));
    (
        first.unwrap_or_default().replace('\t', ", "),
        lines.map(size).collect(),
    )
}

/// What a line says.
fn size(line: &str) -> Size {
    let cells: Vec<&str> = line.split('\t').collect();
    let &[target, options, ref numbers @ .., needs] = &cells[..] else {
        panic!("not a line of sizes: {line}");
    };
    let numbers: Result<Vec<u64>, _> = numbers.iter().map(|cell| cell.parse()).collect();
    let Ok(&[code, constants, data, ref stacks @ .., frames]) = numbers.as_deref() else {
        panic!("not a line of sizes: {line}");
    };
    Size {
        target: target.into(),
        options: options.into(),
        code,
        constants,
        data,
        stacks: stacks.try_into().expect("a stack for each function"),
        frames,
        needs: needs.into(),
    }
}

/// The tables of bytes and of needs, and what was found of the function that may call itself.
pub fn print(folder: &Path) {
    let (by, sizes) = parse(folder);
    let mut heads = vec!["target", "options", "code", "constants", "writable data"];
    let stacks = FUNCTIONS.map(|function| format!("stack of {function}"));
    heads.extend(stacks.iter().map(|head| &**head));
    let mut bytes = Table::new(&heads, 2);
    let mut needs = Table::new(&["target", "needs"], 2);
    for size in &sizes {
        let mut row = vec![size.target.clone(), format!("`{}`", size.options)];
        let numbers = [&[size.code, size.constants, size.data], &size.stacks[..]].concat();
        row.extend(numbers.iter().map(|number| shown(&number.to_string())));
        bytes.row(row);
        let names = size
            .needs
            .replace('(', "(`")
            .replace(", ", "`, `")
            .replace(')', "`)");
        needs.row(vec![size.target.clone(), names]);
    }
    println!("Bytes, by {by}:\n\n{bytes}\n{}\n{needs}", frames(&sizes));
}

/// Where the search for a later stage still calls itself, and where it is a loop.
fn frames(sizes: &[Size]) -> String {
    let of = |again: bool| {
        let all = sizes.iter().filter(|size| (size.frames > 1) == again);
        all.map(|size| &*size.target).collect::<Vec<&str>>()
    };
    let most = sizes.iter().map(|size| size.frames).max().unwrap_or(1);
    let mut said = Vec::new();
    for (targets, how) in [
        (
            of(true),
            format!("calls itself, so that its frame counts {most} times"),
        ),
        (of(false), "is a loop, so that its frame counts once".into()),
    ] {
        match targets.len() {
            0 => (),
            count if count == sizes.len() => said.push(format!("for every target it {how}")),
            _ => said.push(format!("for {} it {how}", targets.join(", "))),
        }
    }
    format!(
        "The search for a later stage, as it is compiled: {}.\n",
        said.join("; ")
    )
}
