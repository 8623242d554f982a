//! A program for a part with no operating system, as far as it can be: no std and no allocation.
//! checks/rust builds it in a project elsewhere; it ends with 0 if the library does its work.

#![no_std]
#![no_main]

use core::panic::PanicInfo;
use harpginger::{Error, Kind, Settings, Sheet, View};

// Starts the program here, and has the memcpy and memset that the library calls.
#[link(name = "c")]
extern "C" {}

fn hold() -> Result<bool, Error> {
    let settings = Settings::accept(Kind::Staged, 4, 2, 28)?;
    let mut cells = [1; 28];
    let raised = Sheet::erased(settings, &mut cells)?.set(3, true)?;
    let view = View::over(settings, &cells);
    Ok(raised == 1 && view.ones()? == 1 && view.bit(3)?)
}

#[no_mangle]
extern "C" fn main() -> i32 {
    i32::from(hold() != Ok(true))
}

// std has one too, so that this program is refused where the crate needs std.
#[panic_handler]
fn panic(_: &PanicInfo) -> ! {
    loop {}
}

// This machine's core is compiled to unwind and names what std has for that; some linkers ask for it though nothing here unwinds.
#[no_mangle]
extern "C" fn rust_eh_personality() {}
