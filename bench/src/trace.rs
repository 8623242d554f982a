//! How often cells were fetched: from the trace that valgrind's lackey writes of a program, which says itself where its cells stand.

use std::io::BufRead;

/// Cells that stand together in a program's memory.
#[derive(Clone, Debug, PartialEq, Eq)]
pub struct Cells {
    first: u64,
    /// How often each was fetched.
    pub fetches: Vec<u64>,
    /// What the program said of them.
    pub word: String,
}

impl Cells {
    /// The cells that a line of the program's output tells of: address of the first, in hexadecimal digits, how many, and a word.
    pub fn said(line: &str) -> Option<Cells> {
        let words: Vec<&str> = line.split(' ').collect();
        let &[first, length, word] = &words[..] else {
            return None;
        };
        Some(Cells {
            first: u64::from_str_radix(first, 16).ok()?,
            fetches: vec![0; length.parse().ok()?],
            word: word.into(),
        })
    }

    /// How often all of them were fetched together.
    pub fn in_all(&self) -> u64 {
        self.fetches.iter().sum()
    }

    /// Stops where a cell was not fetched as it has to be, and says which.
    pub fn hold(&self, row: &str, right: impl Fn(u64) -> bool) {
        if let Some(cell) = self.fetches.iter().position(|&fetches| !right(fetches)) {
            let (word, fetches) = (&self.word, self.fetches[cell]);
            panic!("{row}: cell {cell} ({word}) is fetched {fetches} times");
        }
    }

    /// The address after the last.
    fn end(&self) -> u64 {
        self.first + self.fetches.len() as u64
    }

    /// Counts a load of these addresses for each cell among them.
    fn load(&mut self, from: u64, end: u64) {
        let (from, end) = (from.max(self.first), end.min(self.end()));
        for cell in from..end {
            self.fetches[(cell - self.first) as usize] += 1;
        }
    }
}

/// Counts the loads of a trace, which is too long to be held.
pub fn count(cells: &mut [Cells], mut trace: impl BufRead) {
    let mut cells: Vec<&mut Cells> = cells.iter_mut().collect();
    cells.sort_by_key(|cells| cells.first);
    let mut line = String::new();
    while trace.read_line(&mut line).expect("a trace") > 0 {
        if let Some((from, end)) = load(&line) {
            let next = cells.partition_point(|cells| cells.end() <= from);
            let within = cells[next..].iter_mut();
            for cells in within.take_while(|cells| cells.first < end) {
                cells.load(from, end);
            }
        }
        line.clear();
    }
}

/// The first address of the load that a line of a trace tells, and the one after its last. What is modified is loaded too.
fn load(line: &str) -> Option<(u64, u64)> {
    let load = line.strip_prefix(" L ");
    let (from, size) = load.or(line.strip_prefix(" M "))?.split_once(',')?;
    let from = u64::from_str_radix(from, 16).ok()?;
    Some((from, from + size.trim_end().parse::<u64>().ok()?))
}

#[cfg(test)]
mod tests {
    use super::{count, Cells};

    /// What a trace counts for the cells that these lines tell of.
    fn fetches(said: &[&str], trace: &str) -> Vec<Vec<u64>> {
        let mut cells: Vec<Cells> = said.iter().flat_map(|line| Cells::said(line)).collect();
        assert_eq!(cells.len(), said.len());
        count(&mut cells, trace.as_bytes());
        cells.into_iter().map(|cells| cells.fetches).collect()
    }

    #[test]
    fn a_program_says_where_its_cells_stand() {
        let cells = Cells::said("1fe0 3 active").expect("cells");
        assert_eq!((cells.first, &*cells.word), (0x1fe0, "active"));
        assert_eq!(cells.fetches, [0, 0, 0]);
        for line in [
            "",
            "1fe0 3",
            "1fe0 3 active 1",
            "xyz 3 active",
            "1fe0 x active",
        ] {
            assert_eq!(Cells::said(line), None, "{line}");
        }
    }

    #[test]
    fn cells_that_were_fetched_as_they_have_to_be_are_held() {
        let mut cells = [Cells::said("1000 3 pass").expect("cells")];
        cells[0].hold("a row", |fetches| fetches == 0);
        count(&mut cells, " L 00001000,3\n".as_bytes());
        cells[0].hold("a row", |fetches| fetches == 1);
    }

    #[test]
    #[should_panic(expected = "a row: cell 1 (pass) is fetched 2 times")]
    fn a_cell_that_was_fetched_otherwise_is_told() {
        let mut cells = [Cells::said("1000 3 pass").expect("cells")];
        count(&mut cells, " L 00001000,3\n L 00001001,1\n".as_bytes());
        cells[0].hold("a row", |fetches| fetches == 1);
    }

    #[test]
    fn a_load_inside_counts() {
        let counted = fetches(&["1000 4 x"], " L 00001001,2\n L 00001002,1\n");
        assert_eq!(counted, [[0, 1, 2, 0]]);
    }

    #[test]
    fn a_load_partly_inside_counts_for_the_cells_in_it() {
        let counted = fetches(&["1000 4 x"], " L 00000ffe,4\n L 00001003,8\n");
        assert_eq!(counted, [[1, 1, 0, 1]]);
        assert_eq!(fetches(&["1000 4 x"], " L 00000ff8,32\n"), [[1; 4]]);
    }

    #[test]
    fn a_load_outside_does_not_count() {
        let counted = fetches(
            &["1000 4 x"],
            " L 00000fff,1\n L 00001004,1\n L 1fff000fc8,8\n",
        );
        assert_eq!(counted, [[0; 4]]);
    }

    #[test]
    fn a_load_of_sixteen_bytes_counts_for_sixteen_cells() {
        let counted = fetches(&["1000 18 x"], " L 00001001,16\n");
        assert_eq!(counted[0].iter().sum::<u64>(), 16);
        assert_eq!((counted[0][0], counted[0][17]), (0, 0));
    }

    #[test]
    fn what_is_modified_is_loaded() {
        assert_eq!(fetches(&["1000 2 x"], " M 00001001,1\n"), [[0, 1]]);
    }

    #[test]
    fn stores_and_instructions_do_not_count() {
        let counted = fetches(&["1000 2 x"], " S 00001000,2\nI  00001000,2\n");
        assert_eq!(counted, [[0, 0]]);
    }

    #[test]
    fn other_lines_are_passed_over() {
        let trace =
            "==7== Lackey, an example\n\n L \n L 00001000\n L 1000,x\nL 00001000,1\n L 00001001,1";
        assert_eq!(fetches(&["1000 2 x"], trace), [[0, 1]]);
    }

    #[test]
    fn each_of_many_cells_has_its_own_count() {
        let said = ["2000 2 x", "1000 2 y", "1002 2 z"];
        let counted = fetches(&said, " L 00001001,2\n L 00002000,1\n");
        assert_eq!(counted, [[1, 0], [0, 1], [1, 0]]);
    }
}
