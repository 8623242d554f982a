//! Keeps a sheet of fish pens in a file, as a barge would: a power cut at any point loses nothing.
//!
//! `examples/barge.c` does the same in C, on the same files, and has the table of their layout.
//! Rust 1.89 or later, for the lock on the file, and a file system with hard links.

use harpginger::{Error, Kind, Settings, Sheet, View, MOST_BITS, MOST_CELLS, VERSION};
use std::ffi::OsString;
use std::fs::{self, File, OpenOptions};
use std::io::{self, ErrorKind, Write};
use std::os::unix::fs::FileExt;
use std::path::{Path, PathBuf};
use std::process::ExitCode;

const USAGE: &str = "\
barge FILE new plain|staged PENS TOP CELLS  makes FILE if there is none, through FILE.new1 or the next free name
barge FILE hold PEN                         holds a pen: it is not fed
barge FILE release PEN                      releases a pen
barge FILE show                             the pens held, the changes left and the erases so far
barge FILE mend                             goes on with the whole copy where the other is damaged
Ends with 0 if it is done, 1 if it is refused, 2 for words that it does not know.
Commands on one file at the same time wait for each other.
";

const UNKNOWN: &str = "a format or version that this program does not know: take a newer program";
const NO_COPY: &str = "no copy is whole: it is damaged beyond mending, or no file of barge's; \
                       hold every pen and make a new one under another name";
const NOT_ONE: &str = "damaged, as its copies are not of one sheet: \
                       hold every pen and make a new one under another name";
const NOT_SO_LONG: &str = "a wrong length: it is damaged, or no file of barge's; \
                           hold every pen and make a new one under another name";
const NO_SUCH_SHEET: &str =
    "no such sheet: take 2 to 64 pens, top level 1 to 255 and at most 16384 \
                             cells; plain needs pens * pens cells and pens * top even, staged more \
                             cells and 4, 8, 16, 32 or 64 pens";
const NOT_THERE: &str = "cannot be opened; new makes it where there is none";
const NOT_PRINTED: &str = "the output cannot be written; see what show says";
const NOT_WRITTEN: &str = "cannot be written: this may not be done, and a power cut \
                           may undo what show says; see to the pen by hand";

const MAGIC: &[u8; 7] = b"HGBARGE";
const FORMAT: u64 = 1;
const HEAD: usize = 48;

/// Where the second copy begins: no usual sector or page has bytes of both.
const SECOND: u64 = 131_072;

/// The mark of a copy that is being written, that is being mended, and that is whole: four bits or more
/// from each other, and from 0 and 255, as a lost sector may read.
const WRITING: u8 = 60;
const MENDING: u8 = 90;
const WHOLE: u8 = 165;

/// Why it is not done: the words, or else the file or the system.
enum Refusal {
    Words(String),
    File(String),
}

type Done<T> = Result<T, Refusal>;

/// What the words lack.
fn bad<T>(why: String) -> Done<T> {
    Err(Refusal::Words(why))
}

/// How many words a command takes, where it was given others.
fn takes<T>(word: &str, words: usize) -> Done<T> {
    bad(format!("'{word}' takes this many words after it: {words}"))
}

/// Why the file does not serve.
fn refused<T>(why: impl Into<String>) -> Done<T> {
    Err(Refusal::File(why.into()))
}

/// What the system refused.
fn failed(what: &str) -> impl Fn(io::Error) -> Refusal + '_ {
    move |error| Refusal::File(format!("{what}: {error}"))
}

/// The check sum that gzip and Ethernet have: it tells any one flipped bit.
fn crc32(bytes: &[u8]) -> u32 {
    !bytes.iter().fold(u32::MAX, |sum, &byte| {
        let step = |sum: u32, _| sum >> 1 ^ if sum & 1 == 1 { 0xEDB8_8320 } else { 0 };
        (0..8).fold(sum ^ u32::from(byte), step)
    })
}

/// What one copy keeps, and the bits that are read from it.
struct Kept {
    settings: Settings,
    saves: u64,
    changes: u64,
    erases: u64,
    cells: Vec<u8>,
    held: [u8; MOST_BITS],
}

/// What a copy turns out to be.
enum Copy {
    Unfinished,
    Sound(Kept),
    Damaged,
    Unknown,
}

impl Kept {
    /// An erased sheet.
    fn erased(settings: Settings) -> Kept {
        Kept {
            settings,
            saves: 1,
            changes: 0,
            erases: 0,
            cells: vec![0; settings.cells()],
            held: [0; MOST_BITS],
        }
    }

    /// The sheet as one copy of the file, marked as whole.
    fn laid_out(&self) -> Vec<u8> {
        let settings = &self.settings;
        let kind = u64::from(settings.kind() != Kind::Plain);
        let mut rest = MAGIC.to_vec();
        let mut put = |number: u64, size| rest.extend_from_slice(&number.to_le_bytes()[..size]);
        put(FORMAT, 2);
        put(VERSION, 2);
        put(kind, 1);
        put(settings.top() as u64, 1);
        put(settings.bits() as u64, 2);
        put(settings.cells() as u64, 4);
        for count in [self.saves, self.changes, self.erases] {
            put(count, 8);
        }
        rest.extend_from_slice(&self.cells);
        let sum = crc32(&rest).to_le_bytes();
        [&[WHOLE], &sum[..], &rest].concat()
    }

    /// Flips one pen on the sheet in memory, and gives the levels raised.
    fn flip(&mut self, pen: usize) -> Result<u64, Error> {
        let raised = Sheet::over(self.settings, &mut self.cells).change(pen)?;
        self.held[pen] ^= 1;
        self.changes = self.changes.wrapping_add(1);
        Ok(raised)
    }

    /// Erases the sheet in memory and holds these pens. They always fit: that is k changes at the
    /// most, and no accepted settings guarantee fewer than k.
    fn start_again(&mut self, wanted: &[u8]) -> Result<u64, Error> {
        Sheet::over(self.settings, &mut self.cells).erase()?;
        self.held = [0; MOST_BITS];
        self.changes = 0;
        self.erases = self.erases.wrapping_add(1);
        let pens = (0..self.settings.bits()).filter(|&pen| wanted[pen] == 1);
        pens.map(|pen| self.flip(pen)).sum()
    }

    /// The line of the pens held.
    fn held_line(&self) -> String {
        let pens = (0..self.settings.bits()).filter(|&pen| self.held[pen] == 1);
        let list: String = pens.map(|pen| format!(" {pen}")).collect();
        format!("held:{}\n", if list.is_empty() { " none" } else { &list })
    }

    /// The pens held, and how much the sheet takes yet.
    fn show(&self) -> String {
        let left = self.settings.guarantee().saturating_sub(self.changes);
        let (held, erases) = (self.held_line(), self.erases);
        format!("{held}changes left at least: {left}, erases: {erases}\n")
    }
}

/// Takes the sheet from one copy: nothing is trusted before sum and settings are right and the
/// sheet is read.
fn look(copy: &[u8]) -> Copy {
    let number = |at: usize, size| {
        let bytes = copy[at..at + size].iter().rev();
        bytes.fold(0, |high, &low| high << 8 | u64::from(low))
    };
    if copy[0] == WRITING {
        return Copy::Unfinished;
    }
    if copy[0] != WHOLE || copy[1..5] != crc32(&copy[5..]).to_le_bytes() || copy[5..12] != *MAGIC {
        return Copy::Damaged;
    }
    if number(12, 2) != FORMAT || number(14, 2) > VERSION {
        return Copy::Unknown;
    }
    let kind = match number(16, 1) {
        0 => Kind::Plain,
        1 => Kind::Staged,
        _ => return Copy::Damaged,
    };
    let places = [(18, 2), (17, 1), (20, 4)];
    let [pens, top, cells] = places.map(|(at, size)| number(at, size) as usize);
    let Ok(settings) = Settings::accept(kind, pens, top, cells) else {
        return Copy::Damaged;
    };
    let mut kept = Kept::erased(settings);
    [kept.saves, kept.changes, kept.erases] = [24, 32, 40].map(|at| number(at, 8));
    kept.cells = copy[HEAD..].to_vec();
    match View::over(settings, &kept.cells).read_into(&mut kept.held) {
        Ok(_) => Copy::Sound(kept),
        Err(_) => Copy::Damaged,
    }
}

/// The current copy, or a refusal: what may have lost a hold is not gone on with in silence.
fn choose(copies: [Copy; 2], mending: bool) -> Done<(u8, Kept)> {
    let (current, sheet, damaged) = match copies {
        [Copy::Unknown, _] | [_, Copy::Unknown] => return refused(UNKNOWN),
        [Copy::Sound(first), Copy::Sound(second)] => {
            let second_newer = second.saves == first.saves.wrapping_add(1);
            let first_newer = first.saves == second.saves.wrapping_add(1);
            match first.settings == second.settings {
                true if second_newer => (1, second, false),
                true if first_newer => (0, first, false),
                _ => return refused(NOT_ONE),
            }
        }
        [Copy::Sound(first), other] => (0, first, matches!(other, Copy::Damaged)),
        [other, Copy::Sound(second)] => (1, second, matches!(other, Copy::Damaged)),
        _ => return refused(NO_COPY),
    };
    let (bad, good) = (2 - current, 1 + current);
    match (damaged, mending) {
        (true, false) => refused(format!(
            "copy {bad} is damaged, and may have the last change: mend goes on with copy {good}, \
             at most one change older; then look at every pen"
        )),
        (false, true) => refused("no copy is damaged, so there is nothing to mend"),
        _ => Ok((current, sheet)),
    }
}

/// Waits until no other program has this file, and keeps it until the handle is dropped.
#[clippy::msrv = "1.89"] // of File::lock; the crate itself needs less
fn alone(file: File, writing: bool) -> io::Result<File> {
    match writing {
        true => file.lock()?,
        false => file.lock_shared()?,
    }
    Ok(file)
}

/// An open file, which copy of it is current, and that one's sheet.
struct Barge {
    file: File,
    current: u8,
    sheet: Kept,
}

impl Barge {
    /// Opens the file, for this program alone or for those that only read, and reads both copies,
    /// once all of it is on the disk: a program that was ended before its last sync has left what
    /// is there to read, and a power cut could still undo. What is no file is not opened.
    fn open(path: &Path, writing: bool, mending: bool) -> Done<Barge> {
        if !fs::metadata(path).map_err(failed(NOT_THERE))?.is_file() {
            return refused("no regular file: take another name");
        }
        let opened = OpenOptions::new().read(true).write(writing).open(path);
        let locked = opened.and_then(|file| alone(file, writing));
        let file = locked.map_err(failed("cannot be opened"))?;
        let found = file.sync_all().and_then(|()| file.metadata());
        let length = found.map_err(failed("cannot be read"))?.len();
        let length = length.saturating_sub(SECOND);
        if length <= HEAD as u64 || length > (HEAD + MOST_CELLS) as u64 {
            return refused(NOT_SO_LONG);
        }
        let mut first = vec![0; length as usize];
        let mut second = first.clone();
        let read = file.read_exact_at(&mut first, 0);
        let read = read.and_then(|()| file.read_exact_at(&mut second, SECOND));
        read.map_err(failed("cannot be read"))?;
        let (current, sheet) = choose([look(&first), look(&second)], mending)?;
        Ok(Barge {
            file,
            current,
            sheet,
        })
    }

    /// Saves the sheet over the copy that is not current, and never over the current one.
    fn save(&mut self, meanwhile: u8) -> Done<()> {
        self.sheet.saves = self.sheet.saves.wrapping_add(1);
        let copy = self.sheet.laid_out();
        let at = u64::from(1 - self.current) * SECOND;
        let steps = [(&[meanwhile][..], 0), (&copy[1..], 1), (&copy[..1], 0)];
        for (bytes, from) in steps {
            let written = self.file.write_all_at(bytes, at + from);
            let synced = written.and_then(|()| self.file.sync_all());
            synced.map_err(failed(NOT_WRITTEN))?;
        }
        Ok(())
    }

    /// Holds or releases a pen. What stands so already is not written: a change flips, and wears
    /// the sheet.
    fn set(&mut self, pen: usize, hold: bool) -> Done<String> {
        let state = if hold { "held" } else { "released" };
        let last = self.sheet.settings.bits() - 1;
        let erases = self.sheet.erases;
        if pen > last {
            return refused(format!("there is no pen {pen}: the pens are 0 to {last}"));
        }
        if self.sheet.held[pen] == u8::from(hold) {
            return Ok(format!("pen {pen} was {state} already\n"));
        }
        let mut wanted = self.sheet.held;
        wanted[pen] ^= 1;
        let raised = match self.sheet.flip(pen) {
            Err(Error::Erase) => self.sheet.start_again(&wanted),
            other => other,
        };
        let raised = raised.or_else(|refusal| refused(refusal.to_string()))?;
        self.save(WRITING)?;
        let erased = match self.sheet.erases == erases {
            true => String::new(),
            false => format!("erased, pens held then: {}\n", self.sheet.changes),
        };
        Ok(format!(
            "{erased}pen {pen} {state}, levels raised: {raised}\n"
        ))
    }

    /// Saves the whole copy's sheet over the damaged one. A cut leaves that one damaged, by a mark
    /// that is not a save's: nobody is spared the look at every pen.
    fn mend(&mut self) -> Done<String> {
        self.save(MENDING)?;
        let (bad, good, held) = (2 - self.current, 1 + self.current, self.sheet.held_line());
        let advice = "look at every pen: the last change may be missing";
        Ok(format!(
            "copy {bad} mended from copy {good}\n{held}{advice}\n"
        ))
    }
}

/// Makes a file under the first name that is free: what is there may be in use.
fn fresh(path: &Path) -> Done<(File, PathBuf)> {
    for number in 1..=1000 {
        let mut name = path.as_os_str().to_owned();
        name.push(format!(".new{number}"));
        match File::create_new(&name) {
            Ok(file) => return Ok((file, name.into())),
            Err(error) if error.kind() == ErrorKind::AlreadyExists => (),
            Err(error) => return Err(failed("cannot be made")(error)),
        }
    }
    refused(format!(
        "{0}.new1 to {0}.new1000 are all taken: remove those that are not in use",
        path.display()
    ))
}

/// Makes the file of these two copies, whole or not at all. By link, since a rename replaces a file
/// that is there. No file is written or removed that this run has not made: one that a cut has left
/// stays. It may be a second name of the file itself: whoever removes it does no harm, whoever
/// writes to it does.
fn place(path: &Path, first: &[u8], second: &[u8]) -> Done<()> {
    if path.exists() {
        return refused("there is one already: take another name");
    }
    let folder = path.parent().filter(|folder| *folder != Path::new(""));
    let within = File::open(folder.unwrap_or(Path::new(".")));
    let within = within.map_err(failed("cannot be made"))?;
    let (file, name) = fresh(path)?;
    let written = file.write_all_at(first, 0);
    let written = written.and_then(|()| file.write_all_at(second, SECOND));
    let synced = written.and_then(|()| file.sync_all());
    let made = synced.and_then(|()| fs::hard_link(&name, path));
    let _ = fs::remove_file(&name);
    made.map_err(failed("cannot be made"))?;
    let kept = within.sync_all();
    kept.map_err(failed("made, and may be gone after a power cut"))
}

/// Reads a number strictly: digits only, and no larger than a machine word.
fn number(word: &str) -> Done<usize> {
    match word.parse() {
        Ok(number) if word.bytes().all(|byte| byte.is_ascii_digit()) => Ok(number),
        _ => bad(format!("'{word}' is no number")),
    }
}

/// Makes a file: its first copy is an erased sheet, its second is marked as being written until the
/// first change.
fn make(path: &Path, kind: &str, pens: &str, top: &str, cells: &str) -> Done<String> {
    let kind = match kind {
        "plain" => Kind::Plain,
        "staged" => Kind::Staged,
        _ => return bad(format!("'{kind}' is no kind")),
    };
    let (pens, top, cells) = (number(pens)?, number(top)?, number(cells)?);
    let settings = Settings::accept(kind, pens, top, cells);
    let settings = settings.or_else(|_| refused(NO_SUCH_SHEET))?;
    let first = Kept::erased(settings).laid_out();
    let mut second = vec![0; first.len()];
    second[0] = WRITING;
    place(path, &first, &second)?;
    Ok(format!("changes guaranteed: {}\n", settings.guarantee()))
}

/// Obeys the words after the program's own name, and gives what there is to print.
fn obey(path: &Path, words: &[&str]) -> Done<String> {
    if harpginger::version() != VERSION {
        return refused("the library that is linked is of another version");
    }
    match *words {
        [] => bad("there is no command".into()),
        ["new", kind, pens, top, cells] => make(path, kind, pens, top, cells),
        [word @ ("hold" | "release"), pen] => {
            let pen = number(pen)?;
            Barge::open(path, true, false)?.set(pen, word == "hold")
        }
        ["show"] => Ok(Barge::open(path, false, false)?.sheet.show()),
        ["mend"] => Barge::open(path, true, true)?.mend(),
        [word @ "new", ..] => takes(word, 4),
        [word @ ("hold" | "release"), ..] => takes(word, 1),
        [word @ ("show" | "mend"), ..] => takes(word, 0),
        [word, ..] => bad(format!("'{word}' is no command")),
    }
}

/// Prints with no panic where the output is full or closed.
fn print(text: &str) -> io::Result<()> {
    io::stdout().write_all(text.as_bytes())?;
    io::stdout().flush()
}

fn main() -> ExitCode {
    // A word that is no text is no command and no number, but it may be a file.
    let words: Vec<OsString> = std::env::args_os().skip(1).collect();
    let texts: Vec<String> = words
        .iter()
        .map(|word| word.to_string_lossy().into())
        .collect();
    let texts: Vec<&str> = texts.iter().map(String::as_str).collect();
    let done = match texts[..] {
        [] | ["--help" | "-h"] => Ok(USAGE.to_string()),
        _ => obey(words[0].as_ref(), &texts[1..]),
    };
    let (status, why) = match done {
        Ok(text) if print(&text).is_ok() => return ExitCode::SUCCESS,
        Ok(_) => (1, NOT_PRINTED.to_string()),
        Err(Refusal::File(why)) => (1, format!("{}: {why}", texts[0])),
        Err(Refusal::Words(why)) => (2, format!("{why}; barge --help tells the words")),
    };
    let _ = writeln!(io::stderr(), "barge: {why}");
    ExitCode::from(status)
}
