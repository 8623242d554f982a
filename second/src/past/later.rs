//! Accepted staged sheets of a later stage that no run of changes ends in: the first with the fewest
//! levels raised.
//!
//! All sheets are gone through by levels raised, and within one number of them in the order of
//! counting with cell 0 as the lowest digit. A change raises a level at least, so the search for
//! runs is complete when it follows all sheets with no more levels raised than are gone through.

use super::reached;
use crate::sheets::every_of_sum;
use crate::table::{name, row, summed, total};
use crate::{read, sum, Answer, Settings};
use std::collections::HashSet;

/// The staged settings that are searched: k, L and n.
const SEARCHED: [[u64; 3]; 3] = [[4, 1, 34], [4, 2, 28], [4, 5, 22]];

/// Up to so many levels raised.
const MOST: usize = 5;

/// What is found among all sheets with one number of levels raised.
#[derive(Clone, Debug, Default, PartialEq, Eq)]
pub struct Layer {
    /// How many sheets there are.
    pub sheets: u64,
    /// Accepted at stage 0.
    pub stage_0: u64,
    /// Of these, reached by changes.
    pub stage_0_reached: u64,
    /// Accepted at a later stage.
    pub later: u64,
    /// Of these, reached by changes.
    pub later_reached: u64,
    /// The first that is accepted at a later stage and not reached.
    pub without_past: Option<Vec<u8>>,
}

/// The settings that are searched.
pub fn searched() -> [Settings; 3] {
    SEARCHED.map(|[k, top, n]| Settings::accept(1, k, top, n).1)
}

/// What is found with 0, 1, 2 and so on levels raised.
pub fn layers(settings: &Settings) -> Vec<Layer> {
    let reached = reached(settings, |sheet| sum(sheet) <= MOST as u64);
    let layer = |levels| Layer::of(settings, levels, &reached);
    (0..=MOST).map(layer).collect()
}

impl Layer {
    fn of(settings: &Settings, levels: usize, reached: &HashSet<Vec<u8>>) -> Layer {
        let mut layer = Layer::default();
        for sheet in every_of_sum(settings.n, settings.top as u8, levels) {
            layer.sheets += 1;
            let answer = read(settings, &sheet, &mut [0; 64]);
            if matches!(answer, Answer::Done(_)) {
                let later = sum(&sheet[settings.m * settings.k..]) > 0;
                layer.count(later, reached.contains(&sheet), sheet);
            }
        }
        layer
    }

    fn count(&mut self, later: bool, reached: bool, sheet: Vec<u8>) {
        if !later {
            self.stage_0 += 1;
            self.stage_0_reached += u64::from(reached);
            return;
        }
        self.later += 1;
        self.later_reached += u64::from(reached);
        if !reached && self.without_past.is_none() {
            self.without_past = Some(sheet);
        }
    }

    fn numbers(&self) -> [u64; 5] {
        [
            self.sheets,
            self.stage_0,
            self.stage_0_reached,
            self.later,
            self.later_reached,
        ]
    }
}

/// What is found for all settings as a table with its sums, and below it, for each of the settings and
/// each number of levels raised, the first sheet with no past.
pub fn table() -> String {
    let (mut rows, mut lines, mut found) = (Vec::new(), String::new(), String::new());
    for settings in searched() {
        let layers = layers(&settings);
        let numbers: Vec<[u64; 5]> = layers.iter().map(Layer::numbers).collect();
        rows.push(summed(&numbers));
        lines += &row(&settings, &summed(&numbers));
        for (levels, layer) in layers.iter().enumerate() {
            if let Some(sheet) = &layer.without_past {
                let (name, shown) = (name(&settings), shown(&settings, sheet));
                found += &format!("{name}: no run ends in {shown}, with {levels} levels raised\n");
            }
        }
    }
    format!("{}{lines}{}\n{found}", head(), total(&rows))
}

fn head() -> String {
    format!(
        "\
| settings | sheets with up to {MOST} levels raised | accepted at stage 0 | of these reached | accepted at a later stage | of these reached |
| --- | ---: | ---: | ---: | ---: | ---: |
"
    )
}

/// The blocks, then the index blocks, of a sheet whose levels are all below 10.
pub fn shown(settings: &Settings, sheet: &[u8]) -> String {
    let cut = |cells: &[u8], length| {
        let digits = |block: &[u8]| block.iter().map(u8::to_string).collect();
        let blocks: Vec<String> = cells.chunks(length).map(digits).collect();
        blocks.join(" ")
    };
    let (blocks, rest) = sheet.split_at(settings.m * settings.k);
    let index_blocks = cut(&rest[..settings.index_cells()], settings.w);
    format!("{}, {index_blocks}", cut(blocks, settings.k))
}

#[cfg(test)]
mod tests {
    use super::*;

    #[test]
    fn what_is_counted() {
        let mut layer = Layer::default();
        layer.count(false, true, vec![1]);
        layer.count(false, false, vec![2]);
        layer.count(true, true, vec![3]);
        assert_eq!(layer.numbers(), [0, 2, 1, 1, 1]);
        assert_eq!(layer.without_past, None);
        layer.count(true, false, vec![4]);
        layer.count(true, false, vec![5]);
        assert_eq!(layer.numbers(), [0, 2, 1, 3, 1]);
        assert_eq!(layer.without_past, Some(vec![4]));
    }
}
