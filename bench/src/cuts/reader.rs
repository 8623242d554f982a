//! Reading a sheet by the compiled library, with each reading held to the second program's.

use crate::compiled::Compiled;
use harpginger::MOST_BITS;
use second::Settings;

/// The bits of a sheet, bit 0 first; places after the k bits are 0.
pub type Bits = [u8; MOST_BITS];

/// Reads sheets of one settings and counts how the two programs agree.
pub struct Reader {
    settings: Settings,
    library: Compiled,
    /// How many readings were compared.
    pub compared: u64,
    /// How many of them differed.
    pub differing: u64,
}

impl Reader {
    /// A reader of sheets of these settings.
    pub fn new(settings: &Settings) -> Reader {
        Reader {
            settings: *settings,
            library: Compiled::accept(settings),
            compared: 0,
            differing: 0,
        }
    }

    /// The library.
    pub fn library(&self) -> Compiled {
        self.library
    }

    /// The bits that the library reads, or none where it refuses the sheet.
    pub fn bits(&mut self, sheet: &[u8]) -> Option<Bits> {
        let (mut ours, mut theirs) = ([0; MOST_BITS], [0; MOST_BITS]);
        let reply = self.library.read(sheet, &mut ours);
        let answer = second::read(&self.settings, sheet, &mut theirs);
        let same = (reply.answer, reply.value) == (answer.number(), answer.value());
        self.compared += 1;
        self.differing += u64::from(!same || ours != theirs);
        (reply.answer == 0).then_some(ours)
    }
}
