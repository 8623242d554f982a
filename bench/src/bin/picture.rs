//! Draws the picture of endurance: the file of what was measured in, SVG out.

use bench::{measured, picture};
use std::io::{self, Read};

fn main() -> io::Result<()> {
    let mut text = String::new();
    io::stdin().read_to_string(&mut text)?;
    let measured = measured::parse(&text).map_err(io::Error::other)?;
    print!("{}", picture::draw(&measured));
    Ok(())
}
