//! Writes the pictures of docs/RULES.md into the folder that is named.

use std::path::Path;
use std::{env, fs, io};

fn main() -> io::Result<()> {
    let folder = env::args()
        .nth(1)
        .ok_or(io::Error::other("usage: pictures FOLDER"))?;
    fs::create_dir_all(&folder)?;
    for (name, text) in second::pictures::all() {
        fs::write(Path::new(&folder).join(name), text)?;
    }
    Ok(())
}
