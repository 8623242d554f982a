//! The compiled library, through its archive. The only unsafe code of the package.

use second::compare::{Library, Reply};

const _: () = assert!(usize::BITS == 64, "a number of the archive has 64 bits");

#[link(name = "harpginger", kind = "static")]
extern "C" {
    fn harpginger_settings(
        kind: usize,
        k: usize,
        top: usize,
        n: usize,
        record: *mut usize,
        places: usize,
        value: *mut usize,
    ) -> usize;
    fn harpginger_erase(
        record: *const usize,
        places: usize,
        sheet: *mut u8,
        cells: usize,
        value: *mut usize,
    ) -> usize;
    fn harpginger_read(
        record: *const usize,
        places: usize,
        sheet: *const u8,
        cells: usize,
        output: *mut u8,
        output_places: usize,
        value: *mut usize,
    ) -> usize;
    fn harpginger_change(
        record: *const usize,
        places: usize,
        sheet: *mut u8,
        cells: usize,
        bit: usize,
        value: *mut usize,
    ) -> usize;
}

/// The compiled library.
pub struct Foreign;

/// What stands in the value's place before a call: a call that writes no value shows.
const NO_VALUE: usize = 0xdead_beef_dead_beef;

/// Hands the value's place to the call.
fn reply(call: impl FnOnce(*mut usize) -> usize) -> Reply {
    let mut value = NO_VALUE;
    let answer = call(&mut value);
    Reply { answer, value }
}

// SAFETY, of all four: each pointer is that of a slice lent for the call, with its length, and
// is written only where the slice is lent for writing.
impl Library for Foreign {
    fn settings(&self, [kind, k, top, n]: [usize; 4], record: &mut [usize]) -> Reply {
        let (places, record) = (record.len(), record.as_mut_ptr());
        reply(|value| unsafe { harpginger_settings(kind, k, top, n, record, places, value) })
    }

    fn erase(&self, record: &[usize], sheet: &mut [u8]) -> Reply {
        let (places, record) = (record.len(), record.as_ptr());
        let (cells, sheet) = (sheet.len(), sheet.as_mut_ptr());
        reply(|value| unsafe { harpginger_erase(record, places, sheet, cells, value) })
    }

    fn read(&self, record: &[usize], sheet: &[u8], output: &mut [u8]) -> Reply {
        let (places, record) = (record.len(), record.as_ptr());
        let (cells, sheet) = (sheet.len(), sheet.as_ptr());
        let (output_places, output) = (output.len(), output.as_mut_ptr());
        reply(|value| unsafe {
            harpginger_read(record, places, sheet, cells, output, output_places, value)
        })
    }

    fn change(&self, record: &[usize], sheet: &mut [u8], bit: usize) -> Reply {
        let (places, record) = (record.len(), record.as_ptr());
        let (cells, sheet) = (sheet.len(), sheet.as_mut_ptr());
        reply(|value| unsafe { harpginger_change(record, places, sheet, cells, bit, value) })
    }
}
