//! What was measured of endurance, held to guarantee and limit: as a file and as a table.

use crate::compiled::Compiled;
use crate::places::{kind_name, settings};
use crate::table::{grouped, Table};
use second::Settings;
use std::fmt;
use std::str::FromStr;

/// The most changes that any code can guarantee for k bits on n cells, by the paper's inequality
/// (1): whatever the code, some run leaves L min(n, k - 1) / 2 of the n L levels without a change.
fn limit(settings: &Settings) -> u64 {
    let Settings { k, top, n, .. } = *settings;
    (n * top - (top * n.min(k - 1)).div_ceil(2)) as u64
}

/// What was measured of one settings, all as numbers of changes.
#[derive(Clone, Debug, PartialEq, Eq)]
pub struct Measured {
    /// The settings.
    pub settings: Settings,
    /// n L: the levels of all cells.
    pub levels: u64,
    /// What the library guarantees.
    pub guarantee: u64,
    /// Accepted from the adversary; on a staged sheet, from the one who reads it.
    pub adversary: u64,
    /// Accepted of random bits: the median over the seeds.
    pub random: u64,
    /// Accepted of one bit.
    pub one_bit: u64,
    /// The most that any code could guarantee.
    pub limit: u64,
}

impl Measured {
    /// Counts of the adversary, of one bit and of each seed, held to the guarantee.
    pub fn new(settings: &Settings, counts: &[u64]) -> Measured {
        let guarantee = Compiled::accept(settings).guarantee();
        assert!(
            counts.iter().all(|&count| count >= guarantee),
            "{settings:?} {counts:?}"
        );
        let exact = settings.kind == 1 || counts[0] == guarantee;
        assert!(
            exact,
            "the adversary ends a plain sheet at the guarantee: {settings:?}"
        );
        assert!(
            guarantee <= limit(settings),
            "no code guarantees more: {settings:?}"
        );
        let mut random = counts[2..].to_vec();
        random.sort_unstable();
        Measured {
            settings: *settings,
            levels: (settings.n * settings.top) as u64,
            guarantee,
            adversary: counts[0],
            random: random[random.len() / 2],
            one_bit: counts[1],
            limit: limit(settings),
        }
    }

    /// The counts in the order of the file.
    fn counts(&self) -> [u64; 6] {
        [
            self.levels,
            self.guarantee,
            self.adversary,
            self.random,
            self.one_bit,
            self.limit,
        ]
    }
}

/// The heads of the file's columns.
const HEADS: &str = "kind k L n levels guarantee adversary random one-bit limit";

/// The file of what was measured.
pub fn file(all: &[Measured]) -> String {
    let mut text = format!(
        "# Endurance: changes accepted until the first Erase, and their limits.\n# {HEADS}\n"
    );
    for measured in all {
        text.push_str(&format!("{measured}\n"));
    }
    text
}

/// What such a file says.
pub fn parse(text: &str) -> Result<Vec<Measured>, String> {
    let lines = text.lines().filter(|line| !line.starts_with('#'));
    lines.map(str::parse).collect()
}

impl fmt::Display for Measured {
    fn fmt(&self, to: &mut fmt::Formatter) -> fmt::Result {
        let Settings {
            kind, k, top, n, ..
        } = self.settings;
        write!(to, "{} {k} {top} {n}", kind_name(kind))?;
        self.counts()
            .iter()
            .try_for_each(|count| write!(to, " {count}"))
    }
}

impl FromStr for Measured {
    type Err = String;

    fn from_str(line: &str) -> Result<Measured, String> {
        let why = || format!("not a line of endurance: {line}");
        let (kind, numbers) = line.split_once(' ').ok_or_else(why)?;
        let kind = [0, 1]
            .into_iter()
            .find(|&known| kind_name(known) == kind)
            .ok_or_else(why)?;
        let numbers: Result<Vec<u64>, _> = numbers.split(' ').map(str::parse).collect();
        let Ok(&[k, top, n, levels, guarantee, adversary, random, one_bit, limit]) =
            numbers.as_deref()
        else {
            return Err(why());
        };
        let settings = settings(kind, [k, top, n].map(|number| number as usize)).ok_or_else(why)?;
        Ok(Measured {
            settings,
            levels,
            guarantee,
            adversary,
            random,
            one_bit,
            limit,
        })
    }
}

/// The table of what was measured, each count with its share of all levels.
pub fn table(all: &[Measured]) -> Table {
    let heads = [
        "kind",
        "k",
        "L",
        "n",
        "n L",
        "guarantee",
        "adversary",
        "random bits",
        "one bit",
        "limit of any guarantee",
    ];
    let mut table = Table::new(&heads, 1);
    for measured in all {
        let Settings {
            kind, k, top, n, ..
        } = measured.settings;
        let [levels, counts @ ..] = measured.counts();
        let mut row = vec![kind_name(kind).into()];
        row.extend([k as u64, top as u64, n as u64, levels].map(grouped));
        let share = |count| 100.0 * count as f64 / levels as f64;
        row.extend(counts.map(|count| format!("{} ({:.2}%)", grouped(count), share(count))));
        table.row(row);
    }
    table
}
