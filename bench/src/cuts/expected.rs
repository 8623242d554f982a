//! What is to hold of the cuts, whatever the counts are.

use super::marked::Marked;
use super::order::Order;
use super::runs::Measured;
use super::sort::Sort;
use super::tally::Tally;
use crate::table::name;

/// Each expectation that fails, in words.
pub fn failures(all: &[Measured], marked: &Marked) -> Vec<String> {
    let readings = all.iter().flat_map(reading_failures);
    let plain = all.iter().filter_map(plain_failure);
    let staged = by_sort(all);
    let sorts = Sort::ALL.into_iter().zip(&staged).filter_map(sort_failure);
    let mut failures: Vec<String> = readings.chain(plain).chain(sorts).collect();
    if third(&Tally::sum(&staged), Order::Ascending) == 0 {
        failures.push("no third reading in ascending order, so that none would show".into());
    }
    failures.extend(marked_failures(marked));
    failures
}

/// What was counted on all staged sheets, by sort of change.
pub fn by_sort(all: &[Measured]) -> [Tally; 6] {
    let staged = || all.iter().filter(|measured| measured.settings.kind == 1);
    Sort::ALL.map(|sort| Tally::sum(staged().map(|measured| &measured.sorts[sort as usize])))
}

/// Third readings in an order, at both grains.
fn third(tally: &Tally, order: Order) -> u64 {
    tally.grains.iter().map(|cuts| cuts.third(order)).sum()
}

fn reading_failures(measured: &Measured) -> Option<String> {
    let Measured {
        differing,
        compared,
        ..
    } = *measured;
    let settings = name(&measured.settings);
    (differing > 0).then(|| {
        format!("{settings}: {differing} of {compared} readings differ from the second program's")
    })
}

fn plain_failure(measured: &Measured) -> Option<String> {
    let cuts: u64 = Tally::sum(&measured.sorts).cuts();
    let settings = name(&measured.settings);
    (measured.settings.kind == 0 && cuts > 0)
        .then(|| format!("{settings}: {cuts} cuts, and a plain change raises one level"))
}

fn sort_failure((sort, tally): (Sort, &Tally)) -> Option<String> {
    let (third, name) = (third(tally, Order::Writing), sort.name());
    if tally.changes == 0 {
        return Some(format!("{name}: no run has this sort of change"));
    }
    if sort == Sort::Step && tally.cuts() > 0 {
        return Some(format!("{name}: it raises one level, and was cut"));
    }
    (third > 0 && !sort.may_be_third())
        .then(|| format!("{name}: {third} third readings in the order of writing"))
}

fn marked_failures(marked: &Marked) -> Vec<String> {
    let none = marked.tally.grains.iter().all(|cuts| cuts.found[1] == 1);
    let failures = [
        (
            marked.sort == Sort::MoveOfAll,
            "it has 2(k - 1) live blocks",
        ),
        (none, "there is no order without a third reading"),
        (marked.torn.is_some(), "a torn sheet reads a third thing"),
        (
            marked.differing == 0,
            "each reading is the second program's",
        ),
    ];
    let failing = failures.into_iter().filter(|(holds, _)| !holds);
    failing
        .map(|(_, what)| format!("the marked move: it does not hold that {what}"))
        .collect()
}
