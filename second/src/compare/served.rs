//! The compiled library in a process of its own, `serve.c`: for machines that cannot link it.

use super::case::Call;
use super::library::{Library, Reply};
use super::programs::command;
use std::cell::RefCell;
use std::io::{self, Read, Write};
use std::process::{Child, ChildStdin, ChildStdout, Stdio};

/// A library that another process serves.
pub struct Served {
    line: String,
    /// The process, and how often it was started.
    process: RefCell<(Process, u32)>,
}

struct Process {
    child: Child,
    input: ChildStdin,
    output: ChildStdout,
    message: Vec<u8>,
}

/// How often a process that a call ended is started anew.
const STARTS: u32 = 300;

/// One call's slices, each to be written back.
struct Slices<'a> {
    record: &'a mut [usize],
    sheet: &'a mut [u8],
    output: &'a mut [u8],
}

impl Served {
    /// Starts the process: a command and its words, with spaces between.
    pub fn start(line: &str) -> io::Result<Served> {
        let process = RefCell::new((Process::start(line)?, 1));
        let line = String::from(line);
        Ok(Served { line, process })
    }

    /// Makes one call there. A process that a call ended is started anew, though not for ever.
    fn call(&self, call: Call, bit: usize, asked: [usize; 4], slices: Slices) -> Reply {
        let (process, starts) = &mut *self.process.borrow_mut();
        if *starts > STARTS {
            return Reply::NOT_MADE;
        }
        if let Ok(reply) = process.call(call, bit, asked, slices) {
            return reply;
        }
        match Process::start(&self.line) {
            Ok(anew) => (*process, *starts) = (anew, *starts + 1),
            Err(_) => *starts = STARTS + 1,
        }
        Reply::ENDED
    }
}

/// Ends the process and waits for its end.
impl Drop for Process {
    fn drop(&mut self) {
        let _ = self.child.kill();
        let _ = self.child.wait();
    }
}

impl Process {
    fn start(line: &str) -> io::Result<Process> {
        let mut child = command(line)
            .stdin(Stdio::piped())
            .stdout(Stdio::piped())
            .spawn()?;
        let missing = || io::Error::other("no pipe");
        let input = child.stdin.take().ok_or_else(missing)?;
        let output = child.stdout.take().ok_or_else(missing)?;
        Ok(Process {
            child,
            input,
            output,
            message: Vec::new(),
        })
    }

    fn call(
        &mut self,
        call: Call,
        bit: usize,
        asked: [usize; 4],
        slices: Slices,
    ) -> io::Result<Reply> {
        let Slices {
            record,
            sheet,
            output,
        } = slices;
        let message = &mut self.message;
        message.clear();
        let header = [call as usize, record.len(), sheet.len(), output.len(), bit];
        for number in header.iter().chain(&asked).chain(&*record) {
            message.extend(number.to_le_bytes());
        }
        message.extend_from_slice(sheet);
        message.extend_from_slice(output);
        self.input.write_all(message)?;
        let left = 3 * 8 + 8 * record.len() + sheet.len() + output.len();
        message.resize(left, 0);
        self.output.read_exact(message)?;
        let (numbers, bytes) = message.split_at(3 * 8 + 8 * record.len());
        let mut numbers = numbers
            .chunks_exact(8)
            .map(|bytes| usize::from_le_bytes(bytes.try_into().unwrap_or_default()));
        let mut next = || numbers.next().unwrap_or(0);
        let (answer, value, within) = (next(), next(), next());
        record.iter_mut().for_each(|place| *place = next());
        sheet.copy_from_slice(&bytes[..sheet.len()]);
        output.copy_from_slice(&bytes[sheet.len()..]);
        Ok(match within {
            1 => Reply { answer, value },
            _ => Reply::OUTSIDE,
        })
    }
}

impl Library for Served {
    fn settings(&self, asked: [usize; 4], record: &mut [usize]) -> Reply {
        let (sheet, output) = (&mut [][..], &mut [][..]);
        let slices = Slices {
            record,
            sheet,
            output,
        };
        self.call(Call::Settings, 0, asked, slices)
    }

    fn erase(&self, record: &[usize], sheet: &mut [u8]) -> Reply {
        let (record, output) = (&mut record.to_vec()[..], &mut [][..]);
        let slices = Slices {
            record,
            sheet,
            output,
        };
        self.call(Call::Erase, 0, [0; 4], slices)
    }

    fn read(&self, record: &[usize], sheet: &[u8], output: &mut [u8]) -> Reply {
        let (record, sheet) = (&mut record.to_vec()[..], &mut sheet.to_vec()[..]);
        let slices = Slices {
            record,
            sheet,
            output,
        };
        self.call(Call::Read, 0, [0; 4], slices)
    }

    fn change(&self, record: &[usize], sheet: &mut [u8], bit: usize) -> Reply {
        let (record, output) = (&mut record.to_vec()[..], &mut [][..]);
        let slices = Slices {
            record,
            sheet,
            output,
        };
        self.call(Call::Change, bit, [0; 4], slices)
    }
}
