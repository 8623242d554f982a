//! Holds four fish pens on a small staged sheet, then flips them in turn until the sheet has to be
//! erased.

use harpginger::{Error, Kind, Settings, Sheet};

fn main() -> Result<(), Error> {
    let settings = Settings::accept(Kind::Staged, 4, 2, 28)?;
    let mut cells = vec![0; settings.cells()];
    let mut sheet = Sheet::erased(settings, &mut cells)?;

    let mut accepted = 0;
    for pen in [2, 0, 2] {
        let raised = sheet.set(pen, true)?;
        println!("hold pen {pen}: {raised} raised, held {:?}", sheet.read()?);
        accepted += usize::from(raised > 0);
    }
    let refusal = loop {
        match sheet.change(accepted % settings.bits()) {
            Ok(_) => accepted += 1,
            Err(refusal) => break refusal,
        }
    };
    println!("{refusal}: {:?}", sheet.cells());
    println!(
        "{} changes were guaranteed, {accepted} were accepted",
        settings.guarantee()
    );
    Ok(())
}
