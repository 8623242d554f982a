//! The drive program: records of 8 bytes in, one line for each out.

use crate::{change, erase, read, Answer, Settings};
use std::io::{self, BufReader, BufWriter, Read, Write};

const RECORD: u64 = 8;
const PIECE: usize = 1 << 16;

/// Runs all records of the input, the last of which may be cut.
pub fn drive(input: impl Read, output: impl Write) -> io::Result<()> {
    let mut input = BufReader::with_capacity(PIECE, input);
    let mut output = BufWriter::with_capacity(PIECE, output);
    let mut program = Program::default();
    let mut record = Vec::new();
    loop {
        record.clear();
        input.by_ref().take(RECORD).read_to_end(&mut record)?;
        if record.is_empty() {
            return output.flush();
        }
        program.run(&record, &mut output)?;
    }
}

/// The program between two records.
#[derive(Default)]
pub struct Program {
    held: Option<Held>,
}

/// The sheet held, with its settings.
struct Held {
    settings: Settings,
    sheet: Vec<u8>,
}

impl Program {
    /// Runs one record and writes its line.
    pub fn run(&mut self, record: &[u8], output: &mut impl Write) -> io::Result<()> {
        let answer = self.answer(record);
        write!(output, "{} {} ", answer.number(), answer.value())?;
        match &self.held {
            None => writeln!(output, "0 -"),
            Some(held) => {
                let mut bits = [0; 64];
                read(&held.settings, &held.sheet, &mut bits);
                let bits = bits.map(|bit| b'0' + bit);
                write!(output, "{} ", crate::sum(&held.sheet))?;
                output.write_all(&bits[..held.settings.k])?;
                output.write_all(b"\n")
            }
        }
    }

    fn answer(&mut self, record: &[u8]) -> Answer {
        let &[operation, kind, k, top, n_low, n_high, bit, last] = record else {
            return Answer::BadRecord;
        };
        if last != 0 || (operation != 2 && bit != 0) {
            return Answer::BadRecord;
        }
        let n = u16::from_le_bytes([n_low, n_high]);
        let asked = [kind.into(), k.into(), top.into(), n.into()];
        match (operation, &mut self.held) {
            (1, _) => self.erase_new(asked),
            (2, Some(held)) if held.has(asked) => {
                change(&held.settings, &mut held.sheet, bit.into())
            }
            (3, Some(held)) if held.has(asked) => read(&held.settings, &held.sheet, &mut [0; 64]),
            _ => Answer::BadRecord,
        }
    }

    fn erase_new(&mut self, [kind, k, top, n]: [u64; 4]) -> Answer {
        let (answer, settings) = Settings::accept(kind, k, top, n);
        if answer.number() != 0 {
            return answer;
        }
        let mut sheet = vec![0; settings.n];
        let answer = erase(&settings, &mut sheet);
        self.held = Some(Held { settings, sheet });
        answer
    }
}

impl Held {
    fn has(&self, asked: [u64; 4]) -> bool {
        let Settings {
            kind, k, top, n, ..
        } = self.settings;
        [kind, k, top, n].map(|number| number as u64) == asked
    }
}
