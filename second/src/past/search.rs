//! The sheets that changes reach, found by making every run of them.

use crate::{change, Answer, Settings};
use std::collections::HashSet;

/// The sheets that runs of changes from the erased sheet end in, the erased one too. A run is
/// followed as long as its sheets are kept.
pub fn reached(settings: &Settings, kept: impl Fn(&[u8]) -> bool) -> HashSet<Vec<u8>> {
    let erased = vec![0; settings.n];
    let mut seen = HashSet::from([erased.clone()]);
    let mut left = vec![erased];
    while let Some(sheet) = left.pop() {
        for bit in 0..settings.k {
            let mut after = sheet.clone();
            let done = matches!(change(settings, &mut after, bit), Answer::Done(_));
            if done && kept(&after) && seen.insert(after.clone()) {
                left.push(after);
            }
        }
    }
    seen
}
