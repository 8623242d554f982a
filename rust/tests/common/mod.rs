//! Settings, cells and readings that the tests share.

use harpginger::{Error, Kind, Settings, View, MOST_BITS};

/// Cells from digits; whatever is no digit only parts them.
pub fn levels(text: &str) -> Vec<u8> {
    text.bytes()
        .filter(u8::is_ascii_digit)
        .map(|digit| digit - b'0')
        .collect()
}

/// A plain sheet for k = 4, L = 2 with this one block.
pub fn with_block(block: &str) -> Vec<u8> {
    let mut cells = levels(block);
    cells.resize(16, 0);
    cells
}

pub fn small() -> Settings {
    Settings::accept(Kind::Plain, 4, 2, 16).unwrap()
}

pub fn staged() -> Settings {
    Settings::accept(Kind::Staged, 4, 2, 28).unwrap()
}

/// The bits, also without the feature `alloc`; with it, as `read` gives them too.
pub fn bits(view: View) -> Result<Vec<bool>, Error> {
    let mut out = [0; MOST_BITS];
    let bits = view.read_into(&mut out).map(|ones| {
        let bits = &out[..view.settings().bits()];
        assert_eq!(bits.iter().filter(|&&place| place == 1).count(), ones);
        bits.iter().map(|&place| place == 1).collect()
    });
    #[cfg(feature = "alloc")]
    assert_eq!(view.read(), bits);
    bits
}
