//! Numbers as they cross: of 64 bits on every target. `wide` and `narrow` are the only conversions.

/// A number on its way out. Nothing is lost: a target whose `usize` is wider does not compile.
#[allow(clippy::as_conversions)]
pub fn wide(number: usize) -> u64 {
    const { assert!(usize::BITS <= u64::BITS) };
    number as u64
}

/// A number that came in and counts or names places in memory. The library gives none above
/// 16,384, so nothing is lost. Were one too large all the same, the largest `usize` stands for it:
/// that is the number of no place, so no other place is taken for it, and nothing panics.
pub fn narrow(number: u64) -> usize {
    usize::try_from(number).unwrap_or(usize::MAX)
}

#[cfg(test)]
mod tests {
    use super::{narrow, wide};

    #[test]
    fn numbers_cross_whole() {
        for number in [0, 1, 16_384, usize::MAX] {
            assert_eq!(narrow(wide(number)), number);
        }
        assert_eq!(narrow(u64::MAX), usize::MAX);
    }
}
