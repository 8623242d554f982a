//! The tables of the cuts, each with the words that say what is counted.

use super::expected::by_sort;
use super::marked::Marked;
use super::order::{Grain, Order};
use super::runs::Measured;
use super::search::MOST_STATES;
use super::sort::Sort;
use super::tally::{Cuts, Tally};
use crate::table::{grouped, name, Table};
use second::Settings;

/// Words above the readings.
const READINGS: &str = "Every change of these runs of random bits, from an erased sheet to the first Erase, is cut after each cell but the last (cells: each is written in one go) and after each level but the last (levels: each cell is raised by one level at a time); either, where the two come to the same. The last three columns say how often the torn sheet reads the old bits / reads the new bits / is refused / reads a third thing, which is Done with bits that are neither. Ascending and descending go by cell number. The order of writing is: the index blocks that do not end full, the cells of the m blocks, the index blocks that end full; ascending within each of the three.";

/// Words above the sorts.
const SORTS: &str = "The same cuts of staged sheets by sort of change, and how many of them read a third thing in each order. A change at stage 0 is a step of a block.";

/// All tables.
pub fn page(all: &[Measured], marked: &Marked) -> String {
    let staged = by_sort(all);
    let most = grouped(MOST_STATES as u64);
    let searches_words = format!("Is there any order at all? For each change of a staged sheet that can be cut, all orders of its cells, and all orders of its levels, are searched for one in which no torn sheet reads a third thing. A search is given up at {most} sheets, and its change counted as not searched. Beside it, for how many of the changes the order of writing has a cut that reads a third thing.");
    let compared: u64 = all.iter().map(|measured| measured.compared).sum();
    let differing: u64 = all.iter().map(|measured| measured.differing).sum();
    let compared = grouped(compared + marked.compared);
    let differing = grouped(differing + marked.differing);
    [
        format!("{READINGS}\n\n{}", readings(all)),
        format!("{SORTS}\n\n{}", sorts(&staged)),
        format!("{searches_words}\n\n{}", searches(&staged, marked)),
        example(marked),
        format!("Library and second program were compared on {compared} readings, and differ on {differing}.\n"),
    ]
    .join("\n")
}

/// The readings by settings, grain and order.
fn readings(all: &[Measured]) -> Table {
    let mut heads = vec!["settings", "runs", "changes", "cut after", "cuts"];
    heads.extend(Order::ALL.map(Order::name));
    let mut table = Table::new(&heads, 1);
    for measured in all {
        let sum = Tally::sum(&measured.sorts);
        let [cells, levels] = &sum.grains;
        let mut row = |after: &str, cuts: &Cuts| {
            let mut row = vec![name(&measured.settings)];
            row.extend([measured.runs, sum.changes].map(grouped));
            row.extend([after.into(), grouped(cuts.cuts)]);
            row.extend(cuts.readings.map(|counts| counts.map(grouped).join(" / ")));
            table.row(row);
        };
        if cells == levels {
            row("either", cells);
            continue;
        }
        Grain::ALL
            .into_iter()
            .zip([cells, levels])
            .for_each(|(grain, cuts)| row(grain.name(), cuts));
    }
    table
}

/// A table by sort of change with these columns, the last ones for each grain.
fn by_grain(first: &[&str], of_grain: &[String]) -> Table {
    let mut heads: Vec<String> = first.iter().map(|head| head.to_string()).collect();
    for grain in Grain::ALL {
        heads.extend(
            of_grain
                .iter()
                .map(|head| format!("{}: {head}", grain.name())),
        );
    }
    let heads: Vec<&str> = heads.iter().map(|head| &**head).collect();
    Table::new(&heads, 1)
}

/// Cuts and third readings by sort of change.
fn sorts(staged: &[Tally; 6]) -> Table {
    let mut heads = vec!["cuts".to_string()];
    heads.extend(Order::ALL.map(|order| format!("third, {}", order.name())));
    let mut table = by_grain(&["sort of change", "changes"], &heads);
    for (sort, tally) in Sort::ALL.into_iter().zip(staged) {
        let of_grain = |cuts: &Cuts| {
            let [ascending, descending, writing] = Order::ALL.map(|order| cuts.third(order));
            [cuts.cuts, ascending, descending, writing]
        };
        let mut row = vec![sort.name().into(), grouped(tally.changes)];
        row.extend(tally.grains.iter().flat_map(of_grain).map(grouped));
        table.row(row);
    }
    table
}

/// For how many changes there is no order at all.
fn searches(staged: &[Tally; 6], marked: &Marked) -> Table {
    let heads = [
        "can be cut",
        "third in the order of writing",
        "searched",
        "no order",
        "not searched",
    ];
    let mut table = by_grain(&["sort of change"], &heads.map(str::to_string));
    let sorts = Sort::ALL.into_iter().map(Sort::name).zip(staged);
    for (name, tally) in sorts.chain([("the marked move alone", &marked.tally)]) {
        let of_grain = |cuts: &Cuts| {
            let [order, none, given_up] = cuts.found;
            let spoiled = cuts.spoiled[Order::Writing as usize];
            [cuts.torn, spoiled, order + none, none, given_up]
        };
        let mut row = vec![name.into()];
        row.extend(tally.grains.iter().flat_map(of_grain).map(grouped));
        table.row(row);
    }
    table
}

/// The marked move and its smallest torn sheet that reads a third thing.
fn example(marked: &Marked) -> String {
    let settings = &marked.settings;
    let shown = |sheet: &[u8], bits: &[u8]| {
        format!(
            "`{}` reads `{}`",
            cells(settings, sheet),
            digits(&bits[..settings.k])
        )
    };
    let [before, after] = [0, 1].map(|at| shown(&marked.sheets[at], &marked.whole[at]));
    let torn = marked.torn.as_ref();
    let torn = torn.map_or("there is none".into(), |(sheet, bits)| shown(sheet, bits));
    let settings = name(settings);
    format!("The marked move is the one among the marked numbers of the rules ({settings}; here blocks, then index blocks): {before}, and after the change of bit 3 {after}. Of its torn sheets that read a third thing, the one with the fewest levels raised: {torn}.\n")
}

/// Blocks, then index blocks.
fn cells(settings: &Settings, sheet: &[u8]) -> String {
    let (blocks, index_blocks) = sheet.split_at(settings.m * settings.k);
    let parts = [(blocks, settings.k), (index_blocks, settings.w)];
    let of = |(cells, length): (&[u8], usize)| cells.chunks(length).map(digits).collect::<Vec<_>>();
    parts.map(|part| of(part).join(" ")).join(", ")
}

/// Levels below 10, or bits, one after the other.
fn digits(levels: &[u8]) -> String {
    levels.iter().map(u8::to_string).collect()
}
