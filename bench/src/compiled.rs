//! The compiled library, through its Rust crate, with settings that it has accepted.

use harpginger::{Error, Kind, Sheet, View};
use second::Settings;

/// An answer's number and its value.
#[derive(Clone, Copy, Debug, PartialEq, Eq)]
pub struct Reply {
    /// 0 for Done, up to 8.
    pub answer: u64,
    /// The value returned.
    pub value: u64,
}

impl From<Result<u64, Error>> for Reply {
    fn from(given: Result<u64, Error>) -> Reply {
        let (answer, value) = match given {
            Ok(value) => (0, value),
            Err(Error::BadLevel(cell)) => (Error::BadLevel(cell).number(), cell as u64),
            Err(refusal) => (refusal.number(), 0),
        };
        Reply { answer, value }
    }
}

/// The compiled library with settings that it has accepted.
#[derive(Clone, Copy, Debug)]
pub struct Compiled {
    settings: harpginger::Settings,
}

impl Compiled {
    /// Has the library accept settings that the second program has accepted, to the same record.
    pub fn accept(settings: &Settings) -> Compiled {
        let kind = match settings.kind {
            0 => Kind::Plain,
            _ => Kind::Staged,
        };
        let given = harpginger::Settings::accept(kind, settings.k, settings.top, settings.n);
        let Ok(accepted) = given else {
            panic!("settings are accepted: {settings:?}");
        };
        let worked_out = [accepted.blocks(), accepted.stages(), accepted.width()];
        assert_eq!(worked_out, [settings.m, settings.s, settings.w]);
        Compiled { settings: accepted }
    }

    /// How many changes of an erased sheet the library guarantees.
    pub fn guarantee(&self) -> u64 {
        self.settings.guarantee()
    }

    /// Erases a sheet.
    pub fn erase(&self, sheet: &mut [u8]) -> Reply {
        Sheet::over(self.settings, sheet).erase().into()
    }

    /// Reads a sheet's bits.
    pub fn read(&self, sheet: &[u8], output: &mut [u8]) -> Reply {
        let ones = View::over(self.settings, sheet).read_into(output);
        ones.map(|ones| ones as u64).into()
    }

    /// Changes one bit.
    pub fn change(&self, sheet: &mut [u8], bit: usize) -> Reply {
        Sheet::over(self.settings, sheet).change(bit).into()
    }
}
