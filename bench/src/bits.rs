//! Which bit a run of changes changes next.

use second::random::Random;

/// The bits of a run.
#[derive(Clone, Copy, Debug, PartialEq, Eq)]
pub enum Bits {
    /// Any bit, by this seed.
    Random(u64),
    /// Bit 0 always.
    One,
    /// Bits 1 to k - 1 once each, so that each takes up a block, then bit 0 always: the worst run
    /// of a plain sheet.
    Adversary,
}

impl Bits {
    /// The bits, one after the other, without end.
    pub fn of(self, k: usize) -> Box<dyn Iterator<Item = usize>> {
        match self {
            Bits::Random(seed) => {
                let mut random = Random::new(seed);
                Box::new(std::iter::repeat_with(move || random.below(k)))
            }
            Bits::One => Box::new(std::iter::repeat(0)),
            Bits::Adversary => Box::new((1..k).chain(std::iter::repeat(0))),
        }
    }
}
