//! Slices that are lent to a call, with guards on both sides.

/// A slice between two guards. The guard before is of an odd length, so that slices of bytes
/// start at odd places.
#[derive(Default)]
pub struct Lent<T> {
    /// The guard's length, 0 for none.
    guard: usize,
    mark: T,
    places: Vec<T>,
}

/// The length of a guard.
const GUARD: usize = 67;

impl<T: Copy + PartialEq> Lent<T> {
    /// Lends slices between guards made of the mark. An exact one has no guards: its slice is the
    /// whole of its memory, so that a tool that watches memory sees every step outside.
    pub fn new(mark: T, exact: bool) -> Lent<T> {
        Lent {
            guard: if exact { 0 } else { GUARD },
            mark,
            places: Vec::new(),
        }
    }

    /// Takes this content, and sets the guards anew.
    pub fn fill(&mut self, content: &[T]) {
        self.fill_marks(content.len());
        self.slice_mut().copy_from_slice(content);
    }

    /// Takes so many marks as content, and sets the guards anew.
    pub fn fill_marks(&mut self, count: usize) {
        if self.guard == 0 {
            self.places = own_memory(self.mark, count);
            return;
        }
        self.places.clear();
        self.places.resize(count + 2 * self.guard, self.mark);
    }

    /// The slice.
    pub fn slice(&self) -> &[T] {
        &self.places[self.guard..self.places.len() - self.guard]
    }

    /// The slice, lent for writing.
    pub fn slice_mut(&mut self) -> &mut [T] {
        let end = self.places.len() - self.guard;
        &mut self.places[self.guard..end]
    }

    /// Whether both guards are as they were set.
    pub fn is_guarded(&self) -> bool {
        let (before, rest) = self.places.split_at(self.guard);
        let after = &rest[rest.len() - self.guard..];
        before.iter().chain(after).all(|place| *place == self.mark)
    }
}

/// So many marks in memory of their own and exactly as long: more of it would hide a step outside.
fn own_memory<T: Copy>(mark: T, count: usize) -> Vec<T> {
    let places = vec![mark; count];
    assert_eq!(places.capacity(), count, "memory beyond what is lent");
    places
}

/// All that one call may be lent.
pub struct Lents {
    /// The record.
    pub record: Lent<usize>,
    /// The sheet.
    pub sheet: Lent<u8>,
    /// The output of a reading.
    pub output: Lent<u8>,
}

impl Lents {
    /// Nothing lent yet.
    pub fn new(exact: bool) -> Lents {
        let mut lents = Lents {
            record: Lent::new(0xa5a5_a5a5_a5a5_a5a5, exact),
            sheet: Lent::new(0xa5, exact),
            output: Lent::new(0x5a, exact),
        };
        lents.record.fill(&[]);
        lents.sheet.fill(&[]);
        lents.output.fill(&[]);
        lents
    }

    /// Names the first of the lent that differs from what was expected, and its first place.
    pub fn difference(&self, expected: &Lents) -> Option<String> {
        place("record", self.record.slice(), expected.record.slice())
            .or_else(|| place("cell", self.sheet.slice(), expected.sheet.slice()))
            .or_else(|| place("output", self.output.slice(), expected.output.slice()))
            .or_else(|| {
                let guarded =
                    self.record.is_guarded() && self.sheet.is_guarded() && self.output.is_guarded();
                (!guarded).then(|| String::from("a place outside a lent slice was written"))
            })
    }
}

/// The first place where the two differ, and what stands there.
fn place<T: PartialEq + std::fmt::Display>(
    name: &str,
    found: &[T],
    expected: &[T],
) -> Option<String> {
    if found == expected {
        return None;
    }
    let first = found.iter().zip(expected).position(|(a, b)| a != b)?;
    let (found, expected) = (&found[first], &expected[first]);
    Some(format!("{name} {first} is {found}, expected {expected}"))
}

#[cfg(test)]
mod tests {
    use super::*;

    #[test]
    fn a_place_outside_is_seen() {
        let (mut found, mut expected) = (Lents::new(false), Lents::new(false));
        for outside in [0, GUARD - 1, GUARD + 3, 2 * GUARD + 2] {
            found.sheet.fill(&[1, 2, 3]);
            expected.sheet.fill(&[1, 2, 3]);
            assert_eq!(found.difference(&expected), None);
            found.sheet.places[outside] ^= 1;
            assert!(found.difference(&expected).unwrap().contains("outside"));
        }
    }

    #[test]
    fn exact_slices_are_the_whole_of_their_memory() {
        let mut lents = Lents::new(true);
        for count in [1, 3, 700, 7, 64, 16_384, 2] {
            lents.record.fill_marks(count);
            lents.sheet.fill(&vec![1; count]);
            lents.output.fill_marks(count);
            assert_eq!(lents.record.slice().len(), lents.record.places.capacity());
            for lent in [&lents.sheet, &lents.output] {
                assert_eq!((lent.places.len(), lent.places.capacity()), (count, count));
                assert_eq!(lent.slice().as_ptr(), lent.places.as_ptr());
            }
        }
    }

    #[test]
    fn a_cell_that_differs_is_named() {
        let (mut found, mut expected) = (Lents::new(true), Lents::new(true));
        found.sheet.fill(&[1, 2, 4]);
        expected.sheet.fill(&[1, 2, 3]);
        let text = found.difference(&expected);
        assert_eq!(text.as_deref(), Some("cell 2 is 4, expected 3"));
    }
}
