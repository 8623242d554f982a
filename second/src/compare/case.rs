//! A case: one call with all its inputs. Its one-line text gives all of them back.

use super::lent::Lents;
use super::library::{Library, Reply};
use crate::Settings;
use std::fmt::{self, Display, Formatter};
use std::str::FromStr;

/// Which of the four calls.
#[derive(Clone, Copy, Debug, PartialEq, Eq)]
pub enum Call {
    /// Settings.
    Settings,
    /// Erasing a sheet.
    Erase,
    /// Reading.
    Read,
    /// Change of a bit.
    Change,
}

/// One call with all its inputs.
#[derive(Clone, Debug, PartialEq, Eq)]
pub struct Case {
    /// The call.
    pub call: Call,
    /// Settings: the kind, k, L and n. Else the record, of any number of places.
    pub numbers: Vec<usize>,
    /// The sheet; none for settings.
    pub sheet: Vec<u8>,
    /// Change: the bit's number.
    pub bit: usize,
    /// Settings: places of the record. Reading: places of the output.
    pub places: usize,
}

impl Case {
    /// The settings call with a record of 7 places.
    pub fn settings(asked: [usize; 4]) -> Case {
        Case {
            call: Call::Settings,
            numbers: asked.to_vec(),
            sheet: Vec::new(),
            bit: 0,
            places: 7,
        }
    }

    /// A call on a sheet of accepted settings: bit 0, and k places of output.
    pub fn on(call: Call, settings: &Settings, sheet: &[u8]) -> Case {
        Case {
            call,
            numbers: settings.numbers().to_vec(),
            sheet: sheet.to_vec(),
            bit: 0,
            places: settings.k,
        }
    }

    /// Lends everything and makes the call.
    pub(super) fn run(&self, library: &dyn Library, lents: &mut Lents) -> Reply {
        lents.output.fill(&[]);
        lents.sheet.fill(&self.sheet);
        if self.call == Call::Settings {
            lents.record.fill_marks(self.places);
            let asked = <[usize; 4]>::try_from(&self.numbers[..]).unwrap_or_default();
            return library.settings(asked, lents.record.slice_mut());
        }
        lents.record.fill(&self.numbers);
        let (record, sheet) = (lents.record.slice(), lents.sheet.slice_mut());
        match self.call {
            Call::Read => {
                lents.output.fill_marks(self.places);
                library.read(record, sheet, lents.output.slice_mut())
            }
            Call::Change => library.change(record, sheet, self.bit),
            _ => library.erase(record, sheet),
        }
    }

    /// How large the case is: cells, then k, then L, then the sum of levels.
    pub(super) fn size(&self) -> [u64; 4] {
        let number = |place: usize| self.numbers.get(place).map_or(0, |&number| number as u64);
        let cells = self.sheet.len() as u64;
        [cells, number(1), number(2), crate::sum(&self.sheet)]
    }
}

const CALLS: [(Call, &str); 4] = [
    (Call::Settings, "settings"),
    (Call::Erase, "erase"),
    (Call::Read, "read"),
    (Call::Change, "change"),
];

/// `change 0,2,1,4,2,0,0 bit 1 places 2 sheet 1,0*3`: a level and how often it stands there.
/// A list of nothing is `-`.
impl Display for Case {
    fn fmt(&self, f: &mut Formatter) -> fmt::Result {
        let (_, call) = CALLS[self.call as usize];
        let numbers: Vec<String> = self.numbers.iter().map(usize::to_string).collect();
        let alike = self.sheet.chunk_by(|left, right| left == right);
        let levels: Vec<String> = alike
            .map(|cells| match cells.len() {
                1 => cells[0].to_string(),
                times => format!("{}*{times}", cells[0]),
            })
            .collect();
        let (bit, places) = (self.bit, self.places);
        let (numbers, levels) = (list(&numbers), list(&levels));
        write!(
            f,
            "{call} {numbers} bit {bit} places {places} sheet {levels}"
        )
    }
}

/// The words of a list, or `-`.
fn list(words: &[String]) -> String {
    match words {
        [] => String::from("-"),
        _ => words.join(","),
    }
}

/// The words of a list's text.
fn words(list: &str) -> impl Iterator<Item = &str> {
    list.split(',').filter(|&word| word != "-")
}

impl FromStr for Case {
    type Err = String;

    fn from_str(text: &str) -> Result<Case, String> {
        let wrong = || format!("not a case: {text}");
        let parts: Vec<&str> = text.split(' ').collect();
        let [call, numbers, "bit", bit, "places", places, "sheet", levels] = parts[..] else {
            return Err(wrong());
        };
        let number = |word: &str| word.parse::<usize>().map_err(|_| wrong());
        let mut sheet = Vec::new();
        for word in words(levels) {
            let (level, times) = word.split_once('*').unwrap_or((word, "1"));
            let level = u8::try_from(number(level)?).map_err(|_| wrong())?;
            sheet.extend(std::iter::repeat_n(level, number(times)?));
        }
        let named = CALLS.iter().find(|named| named.1 == call);
        Ok(Case {
            call: named.ok_or_else(wrong)?.0,
            numbers: words(numbers).map(number).collect::<Result<_, _>>()?,
            sheet,
            bit: number(bit)?,
            places: number(places)?,
        })
    }
}

#[cfg(test)]
mod tests {
    use super::*;

    #[test]
    fn the_text_gives_the_case_back() {
        let (_, settings) = Settings::accept(0, 2, 1, 4);
        for case in [
            Case::settings([0, 2, 1, usize::MAX]),
            Case::on(Call::Erase, &settings, &[]),
            Case::on(Call::Read, &settings, &[1, 0, 0, 0]),
            Case::on(Call::Change, &Settings::default(), &[255, 255, 3]),
        ] {
            assert_eq!(case.to_string().parse(), Ok(case));
        }
        let forged = "change - bit 1 places 0 sheet 1,0*3"
            .parse::<Case>()
            .unwrap();
        assert_eq!((forged.numbers.len(), forged.sheet), (0, vec![1, 0, 0, 0]));
    }
}
