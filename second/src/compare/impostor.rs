//! Libraries that cheat. The comparison must tell each of them apart, as it must each flaw.

use super::library::{Library, Model, Reply};
use crate::{Flaw, Settings};

/// The model, save for one way to cheat.
#[derive(Clone, Copy, Debug, PartialEq, Eq)]
pub enum Impostor {
    /// Answers Erase to every change that would be accepted.
    ErasesAlways,
    /// Reads all zeros.
    ReadsZeros,
    /// Answers Done to a change and raises nothing.
    RaisesNothing,
    /// Works at stage 0 and only pretends later.
    PretendsLater,
    /// Answers one level more than it raised.
    InventsLevels,
    /// A reading writes the place after the k bits too.
    WritesOn,
    /// A refused reading writes a place.
    WritesRefused,
    /// A refused change clears cell 0.
    ClearsRefused,
    /// Refused settings leave the record as it was.
    KeepsRecord,
    /// Settings write a record of other than 7 places.
    WritesAnyRecord,
    /// Erasing leaves the last cell as it was.
    ErasesShort,
}

impl Impostor {
    /// Every impostor.
    pub const ALL: [Impostor; 11] = [
        Impostor::ErasesAlways,
        Impostor::ReadsZeros,
        Impostor::RaisesNothing,
        Impostor::PretendsLater,
        Impostor::InventsLevels,
        Impostor::WritesOn,
        Impostor::WritesRefused,
        Impostor::ClearsRefused,
        Impostor::KeepsRecord,
        Impostor::WritesAnyRecord,
        Impostor::ErasesShort,
    ];
}

const MODEL: Model = Model(Flaw::None);

impl Library for Impostor {
    fn settings(&self, asked: [usize; 4], record: &mut [usize]) -> Reply {
        let before = record.to_vec();
        let reply = MODEL.settings(asked, record);
        match self {
            Impostor::KeepsRecord if reply.answer > 0 => record.copy_from_slice(&before),
            Impostor::WritesAnyRecord if record.len() != 7 => record.fill(0),
            _ => {}
        }
        reply
    }

    fn erase(&self, record: &[usize], sheet: &mut [u8]) -> Reply {
        let before = sheet.last().copied();
        let reply = MODEL.erase(record, sheet);
        if let (Impostor::ErasesShort, Some(last)) = (self, sheet.last_mut()) {
            *last = before.unwrap_or(0);
        }
        reply
    }

    fn read(&self, record: &[usize], sheet: &[u8], output: &mut [u8]) -> Reply {
        let mut reply = MODEL.read(record, sheet, output);
        let k = Settings::of(record).k;
        match (self, reply.answer) {
            (Impostor::ReadsZeros, 0) => {
                output[..k].fill(0);
                reply.value = 0;
            }
            (Impostor::WritesOn, 0) if output.len() > k => output[k] = 0,
            (Impostor::WritesRefused, 1..) if !output.is_empty() => output[0] = 0,
            _ => {}
        }
        reply
    }

    fn change(&self, record: &[usize], sheet: &mut [u8], bit: usize) -> Reply {
        let before = sheet.to_vec();
        let mut reply = MODEL.change(record, sheet, bit);
        let Settings { k, m, .. } = Settings::of(record);
        match (self, reply.answer) {
            (Impostor::ErasesAlways, 0) => {
                sheet.copy_from_slice(&before);
                reply = Reply {
                    answer: 7,
                    value: 0,
                };
            }
            (Impostor::RaisesNothing, 0) => sheet.copy_from_slice(&before),
            (Impostor::PretendsLater, 0) if sheet[m * k..].iter().any(|&level| level > 0) => {
                sheet.copy_from_slice(&before);
            }
            (Impostor::InventsLevels, 0) => reply.value += 1,
            (Impostor::ClearsRefused, 1..) if !sheet.is_empty() => sheet[0] = 0,
            _ => {}
        }
        reply
    }
}
