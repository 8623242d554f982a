//! Every assignment of levels, in the order of counting: cell 0 is the lowest digit.

use std::iter::successors;

/// Every assignment of levels up to the highest to so many cells.
pub fn every(cells: usize, highest: u8) -> impl Iterator<Item = Vec<u8>> {
    successors(Some(vec![0; cells]), move |levels| {
        let raised = levels.iter().position(|&level| level < highest)?;
        let mut next = levels.clone();
        next[raised] += 1;
        next[..raised].fill(0);
        Some(next)
    })
}

/// Those of them whose levels have this sum.
pub fn every_of_sum(cells: usize, highest: u8, sum: usize) -> impl Iterator<Item = Vec<u8>> {
    let mut first = vec![0; cells];
    let fits = sum <= cells * usize::from(highest);
    fill_low(&mut first, highest, sum);
    successors(fits.then_some(first), move |levels| {
        let mut below = 0;
        for (cell, &level) in levels.iter().enumerate() {
            if below > 0 && level < highest {
                let mut next = levels.clone();
                next[cell] += 1;
                fill_low(&mut next[..cell], highest, below - 1);
                return Some(next);
            }
            below += usize::from(level);
        }
        None
    })
}

/// The first assignment with this sum, or the highest levels where they don't sum to it.
fn fill_low(levels: &mut [u8], highest: u8, mut sum: usize) {
    for level in levels {
        *level = sum.min(highest.into()) as u8;
        sum -= usize::from(*level);
    }
}

#[cfg(test)]
mod tests {
    use super::*;

    #[test]
    fn each_assignment_once_in_the_order_of_counting() {
        for (cells, highest) in [(0, 1), (1, 3), (4, 1), (4, 3), (6, 2)] {
            let value = |levels: &Vec<u8>| {
                let add = |number, &level: &u8| number * u64::from(highest + 1) + u64::from(level);
                levels.iter().rev().fold(0, add)
            };
            let all: Vec<Vec<u8>> = every(cells, highest).collect();
            let count = u64::from(highest + 1).pow(cells as u32);
            assert!(all.iter().map(value).eq(0..count));
            let mut found = 0;
            for sum in 0..=cells * usize::from(highest) + 1 {
                let of_sum = |levels: &&Vec<u8>| crate::sum(levels) == sum as u64;
                let expected = all.iter().filter(of_sum).cloned();
                assert!(every_of_sum(cells, highest, sum).eq(expected));
                found += every_of_sum(cells, highest, sum).count() as u64;
            }
            assert_eq!(found, count);
        }
    }
}
