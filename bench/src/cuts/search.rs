//! Whether there is any order at all in which no torn sheet of a change reads a third thing.

use super::order::{Grain, Order};
use super::torn::{Reading, Torn};
use std::collections::HashMap;

/// A search that has read so many sheets is given up.
pub const MOST_STATES: usize = 20_000;

/// What a search found.
#[derive(Clone, Copy, Debug, PartialEq, Eq)]
pub enum Found {
    /// An order with no third reading.
    Order,
    /// There is no such order.
    None,
    /// The search was given up.
    GivenUp,
}

/// The levels of the cells that a change moves, in the order of writing.
type State = Vec<u8>;

/// What is known of a state.
#[derive(Clone, Copy, PartialEq)]
enum Known {
    /// Reached from the sheet before the change.
    FromOld,
    /// The sheet after the change is reached from it.
    FromNew,
    /// It reads a third thing.
    Third,
}

/// One of the two sides that the search goes on from.
struct Side {
    known: Known,
    /// The levels that this side goes towards.
    ends: State,
    /// The states on the way, each with how many of its cells were tried.
    way: Vec<(State, usize)>,
}

/// A search through the states of one change.
struct Search<'a, 'b> {
    torn: &'a mut Torn<'b>,
    grain: Grain,
    cells: Vec<usize>,
    sheet: Vec<u8>,
    known: HashMap<State, Known>,
}

/// Searches from the sheet before the change and from the one after it, in turn: an order is found
/// where the two meet, and there is none as soon as one of them has no state left to go on from.
pub fn search(torn: &mut Torn, grain: Grain) -> Found {
    let change = torn.change;
    let cells = Order::Writing.cells(change);
    let levels = |sheet: &[u8]| cells.iter().map(|&cell| sheet[cell]).collect::<State>();
    let (old, new) = (levels(change.before), levels(change.after));
    let mut sides = [
        Side::new(Known::FromOld, &old, &new),
        Side::new(Known::FromNew, &new, &old),
    ];
    let mut search = Search {
        sheet: change.before.to_vec(),
        known: HashMap::from([(old, Known::FromOld), (new, Known::FromNew)]),
        torn,
        grain,
        cells,
    };
    let mut turn = 0;
    while search.known.len() < MOST_STATES {
        if let Some(found) = search.go_on(&mut sides[turn % 2]) {
            return found;
        }
        turn += 1;
    }
    Found::GivenUp
}

impl Side {
    fn new(known: Known, starts: &State, ends: &State) -> Side {
        Side {
            known,
            ends: ends.clone(),
            way: vec![(starts.clone(), 0)],
        }
    }

    /// The next state to look at, or none where no state is left to go on from.
    fn next(&mut self, grain: Grain) -> Option<State> {
        let (state, tried) = self.way.last_mut()?;
        // The order of writing is tried first, from either end.
        let cell = match self.known {
            Known::FromNew => state.len() - 1 - *tried,
            _ => *tried,
        };
        *tried += 1;
        let mut next = state.clone();
        if next[cell] != self.ends[cell] {
            next[cell] = grain.nearer(next[cell], self.ends[cell]);
        }
        if *tried == state.len() {
            self.way.pop();
        }
        Some(next)
    }
}

impl Search<'_, '_> {
    /// Looks at one more state from a side; what that decides, if it does.
    fn go_on(&mut self, side: &mut Side) -> Option<Found> {
        let Some(state) = side.next(self.grain) else {
            return Some(Found::None);
        };
        match self.known.get(&state) {
            Some(&known) if known == side.known || known == Known::Third => None,
            Some(_) => Some(Found::Order),
            None => {
                self.look_at(side, state);
                None
            }
        }
    }

    /// Reads a state for the first time.
    fn look_at(&mut self, side: &mut Side, state: State) {
        for (&cell, &level) in self.cells.iter().zip(&state) {
            self.sheet[cell] = level;
        }
        let known = match self.torn.reading(&self.sheet) {
            Reading::Third => Known::Third,
            _ => side.known,
        };
        self.known.insert(state.clone(), known);
        if known != Known::Third {
            side.way.push((state, 0));
        }
    }
}
