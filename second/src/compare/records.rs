//! Files of records for the drive program: mostly good records, and every way to spoil one.

use crate::random::Random;
use crate::sheets::some_settings;
use crate::Settings;

/// A writer of records that follows which settings the program holds.
struct Writer<'a> {
    random: &'a mut Random,
    /// The most cells of a sheet.
    most: usize,
    /// Settings of the sheet held: kind, k, L and n.
    held: Option<[u8; 5]>,
    file: Vec<u8>,
}

/// A file of so many records, on sheets of at most so many cells, and perhaps a cut last one.
/// One record in so many is spoiled or erases a new sheet.
pub fn some_file(random: &mut Random, records: usize, most: usize, one_in: usize) -> Vec<u8> {
    let any_cut = random.between(1, 7);
    let cut = random.one_of(&[0, 0, any_cut]);
    let mut writer = Writer {
        random,
        most,
        held: None,
        file: Vec::with_capacity(8 * records + 8),
    };
    for _ in 0..records {
        writer.write(one_in);
    }
    let whole = writer.file.len();
    writer.write(one_in);
    writer.file.truncate(whole + cut);
    writer.file
}

impl Writer<'_> {
    fn write(&mut self, one_in: usize) {
        if self.random.below(one_in) == 0 {
            return self.write_other();
        }
        let Some(held) = self.held else {
            return match self.random.below(8) {
                0 => self.write_other(),
                _ => self.erase_new(),
            };
        };
        let k = usize::from(held[1]);
        match self.random.below(12) {
            0 => self.push(3, held, 0, 0),
            1 => self.push(2, held, 0, 0),
            _ => {
                let bit = self.random.below(k) as u8;
                self.push(2, held, bit, 0);
            }
        }
    }

    fn push(&mut self, operation: u8, asked: [u8; 5], bit: u8, last: u8) {
        self.file.push(operation);
        self.file.extend(asked);
        self.file.extend([bit, last]);
    }

    /// Erases a new sheet of accepted settings.
    fn erase_new(&mut self) {
        let kind = self.random.below(2);
        let settings = loop {
            let settings = some_settings(self.random, kind);
            if settings.n <= self.most {
                break settings;
            }
        };
        let asked = bytes(&settings);
        self.held = Some(asked);
        self.push(1, asked, 0, 0);
    }

    /// A record that is spoiled in one place or two, or a new sheet.
    fn write_other(&mut self) {
        let mut asked = self.held.unwrap_or([0, 2, 1, 4, 0]);
        let any = self.random.number() as u8;
        let any = self.random.one_of(&[1, 2, 255, any]);
        let operation = self.random.between(1, 3) as u8;
        let field = self.random.below(5);
        match self.random.below(10) {
            0 => self.push(any, asked, 0, 0),
            1 => self.push(operation, asked, any, 0),
            2 => self.push(operation, asked, 0, any),
            3 => {
                asked[field] = self.random.one_of(&[any, asked[field] ^ 1, 0]);
                self.push_asked(operation, asked);
            }
            4 => {
                asked[field] = asked[field].wrapping_add(any);
                self.push_asked(1, asked);
            }
            5 => self.push(2, asked, asked[1].wrapping_add(any / 64), 0),
            6 => {
                let spoiled = self.random.number().to_le_bytes();
                self.push_asked(
                    spoiled[0] % 5,
                    [any % 3, spoiled[1], spoiled[2], 0, spoiled[3]],
                );
            }
            7 => {
                let spoiled = self.random.number().to_le_bytes();
                self.push_asked(spoiled[7], asked);
            }
            8 => self.push(1, asked, 0, 0),
            _ => self.erase_new(),
        }
    }

    /// A record of other settings, which an erase may hold from now on.
    fn push_asked(&mut self, operation: u8, asked: [u8; 5]) {
        let [kind, k, top, low, high] = asked.map(u64::from);
        let n = low + 256 * high;
        if operation == 1 && Settings::accept(kind, k, top, n).1.k > 0 {
            self.held = Some(asked);
        }
        self.push(operation, asked, 0, 0);
    }
}

/// The settings as a record names them.
fn bytes(settings: &Settings) -> [u8; 5] {
    let [low, high] = (settings.n as u16).to_le_bytes();
    let [kind, k, top] = [settings.kind, settings.k, settings.top].map(|number| number as u8);
    [kind, k, top, low, high]
}

/// The records of the rules' example.
pub fn example() -> Vec<u8> {
    let steps = [
        (1, 0),
        (2, 0),
        (2, 1),
        (2, 0),
        (2, 0),
        (2, 2),
        (3, 0),
        (9, 0),
    ];
    let record = |(operation, bit)| [operation, 0, 2, 1, 4, 0, bit, 0];
    steps.into_iter().flat_map(record).collect()
}

/// The files that are the same for every seed: no byte at all, the rules' example and all its
/// cuts, and a file with each byte of each operation's record set to each value.
pub fn fixed_files() -> Vec<Vec<u8>> {
    let example = example();
    let mut files: Vec<Vec<u8>> = (0..=example.len())
        .map(|cut| example[..cut].to_vec())
        .collect();
    for good in [[0, 2, 1, 4, 0], [1, 4, 2, 28, 0], [0, 64, 255, 0, 64]] {
        files.push(each_byte(good));
    }
    files
}

/// Every operation on these settings with each byte set to each value, and the sheet erased anew
/// before it.
fn each_byte(good: [u8; 5]) -> Vec<u8> {
    let mut file = Vec::new();
    let [kind, k, top, low, high] = good;
    let step = if high > 0 { 5 } else { 1 };
    for operation in 1..=3 {
        for place in 0..8 {
            for value in (0..=255).step_by(step) {
                let mut record = [operation, kind, k, top, low, high, 0, 0];
                record[place] = value;
                file.extend([1, kind, k, top, low, high, 0, 0]);
                file.extend(record);
            }
        }
    }
    file
}

/// Changes to Erase and a new sheet after it, over and over, on these settings.
pub fn long_run(random: &mut Random, asked: [u64; 4], records: usize) -> Vec<u8> {
    let settings = Settings::asked(asked);
    let asked = bytes(&settings);
    let push = |file: &mut Vec<u8>, operation: u8, bit: u8| {
        file.push(operation);
        file.extend(asked);
        file.extend([bit, 0]);
    };
    let mut file = Vec::with_capacity(8 * records);
    let mut sheet = vec![0; settings.n];
    push(&mut file, 1, 0);
    while file.len() < 8 * records {
        let bit = random.below(settings.k);
        push(&mut file, 2, bit as u8);
        if crate::change(&settings, &mut sheet, bit).number() == 7 {
            push(&mut file, 3, 0);
            push(&mut file, 1, 0);
            sheet.fill(0);
        }
    }
    file
}
