//! The worked numbers of docs/RULES.md, computed again.

mod common;

use common::{accept, bits, cells, checked_change, has_a_past, sum};
use second::command::said;
use second::compare::{past, refused};
use second::past::later;
use second::{read, Answer, Settings};

const PAGE: &str = concat!(env!("CARGO_MANIFEST_DIR"), "/../docs/RULES.md");

/// The rows of the one table whose head begins so.
fn rows(head: &str) -> Vec<Vec<String>> {
    let page = std::fs::read_to_string(PAGE).unwrap();
    let lines: Vec<&str> = page.lines().collect();
    let heads: Vec<usize> = (0..lines.len())
        .filter(|&place| lines[place].starts_with(head))
        .collect();
    assert_eq!(heads.len(), 1, "{head}");
    let first = heads[0] + 2;
    let table = lines[first..]
        .iter()
        .take_while(|line| line.starts_with('|'));
    let columns = |line: &&str| {
        let inner = line.trim_matches('|');
        inner
            .split('|')
            .map(|cell| cell.trim().to_string())
            .collect()
    };
    table.map(columns).collect()
}

fn number(cell: &str) -> u64 {
    cell.parse().unwrap_or_else(|_| panic!("no number: {cell}"))
}

#[test]
fn settings() {
    let rows = rows("| Kind | k | L | n | m |");
    assert_eq!(rows.len(), 13);
    for row in rows {
        let kind = ["plain", "staged"]
            .iter()
            .position(|name| *name == row[0])
            .unwrap();
        let [k, top, n] = [&row[1], &row[2], &row[3]].map(|cell| number(cell));
        let (answer, record) = Settings::accept(kind as u64, k, top, n);
        if row[4] == "-" {
            assert_eq!((answer, record), (Answer::BadShape, Settings::default()));
            continue;
        }
        let Settings { k, m, s, w, .. } = record;
        let index_cells = 2 * (k - 1) * s.saturating_sub(1) * w;
        let found = [m, s, w, index_cells].map(|number| number as u64);
        let told: Vec<u64> = row[4..].iter().map(|cell| number(cell)).collect();
        assert_eq!(told[..4], found, "{row:?}");
        assert_eq!(answer, Answer::Done(told[4]), "{row:?}");
    }
}

#[test]
fn answers() {
    let rows = rows("| No. | **Answer** |");
    let answers = [
        Answer::Done(0),
        Answer::BadShape,
        Answer::BadLength,
        Answer::ShortOutput,
        Answer::BadBit,
        Answer::BadLevel(0),
        Answer::BadSheet,
        Answer::Erase,
        Answer::BadRecord,
    ];
    assert_eq!(rows.len(), answers.len());
    for (row, answer) in rows.iter().zip(answers) {
        assert_eq!(number(&row[0]), answer.number());
        assert_eq!(format!("{answer:?}").trim_end_matches("(0)"), row[1]);
    }
}

#[test]
fn blocks() {
    let settings = accept(0, 4, 2, 16);
    let rows = rows("| Block | Bit | Weight |");
    assert_eq!(rows.len(), 8);
    for row in rows {
        let mut sheet = cells(&format!("{} 0000 0000 0000", row[0]));
        if row[1] == "BadSheet" {
            assert_eq!(read(&settings, &sheet, &mut [0; 4]), Answer::BadSheet);
            continue;
        }
        let (bit, value) = (number(&row[1]) as usize, number(&row[3]));
        let mut expected = vec![0; 4];
        expected[bit] = value as u8;
        assert_eq!(bits(&settings, &sheet), expected, "{row:?}");
        assert_eq!(sum(&sheet), number(&row[2]), "{row:?}");
        assert_eq!(checked_change(&settings, &mut sheet, bit), Answer::Done(1));
        assert_eq!(sheet[..4], cells(&row[4]), "{row:?}");
    }
}

/// A row of the move's table: levels, bits, sum and what is still certain after so many changes.
fn check_moment(settings: &Settings, sheet: &[u8], made: u64, row: &[String]) {
    assert_eq!(sheet, cells(&format!("{} {}", row[1], row[2])), "{row:?}");
    assert_eq!(bits(settings, sheet), cells(&row[4]), "{row:?}");
    assert_eq!(sum(sheet), number(&row[5]), "{row:?}");
    assert_eq!(settings.guarantee() - made, number(&row[6]), "{row:?}");
}

#[test]
fn the_move() {
    let settings = accept(1, 4, 2, 28);
    let rows = rows("| Change | Blocks | Batch 1 |");
    assert_eq!((rows.len(), rows[0][0].as_str()), (6, "before"));
    let mut sheet = vec![0; 28];
    let first = [0, 1, 2, 3, 3, 3, 3, 3, 3, 3, 3];
    for bit in first {
        assert_eq!(checked_change(&settings, &mut sheet, bit), Answer::Done(1));
    }
    let mut made = first.len() as u64;
    check_moment(&settings, &sheet, made, &rows[0]);
    for row in &rows[1..] {
        let bit = number(row[0].strip_prefix("bit ").unwrap()) as usize;
        let answer = checked_change(&settings, &mut sheet, bit);
        assert_eq!(answer, Answer::Done(number(&row[3])), "{row:?}");
        made += 1;
        check_moment(&settings, &sheet, made, row);
    }
}

/// A plain sheet and a staged one at stage 0 whose first blocks are these, and the rest 0.
fn sheets(blocks: &str) -> [(Settings, Vec<u8>); 2] {
    [accept(0, 4, 2, 16), accept(1, 4, 2, 28)].map(|settings| {
        let mut sheet = cells(blocks);
        sheet.resize(settings.n, 0);
        (settings, sheet)
    })
}

/// The page has these words.
fn says(words: &str) {
    let page = std::fs::read_to_string(PAGE).unwrap();
    assert!(page.contains(words), "{words}");
}

#[test]
fn an_erase_that_is_cut() {
    says("of 2221, with one cell erased, 0221 is left, and bit 0 is no longer 1 but bit 1 is");
    for (settings, mut sheet) in sheets("2221") {
        assert_eq!(bits(&settings, &sheet), [1, 0, 0, 0]);
        sheet[0] = 0;
        assert_eq!(sheet[..4], cells("0221"));
        assert_eq!(bits(&settings, &sheet), [0, 1, 0, 0]);
    }
}

#[test]
fn an_accepted_sheet_with_no_past() {
    says("the staged sheet 1000 0100 0010 2222, 01 00 00 00 00 00 of the cut move above is accepted, and no run ends in it");
    let settings = accept(1, 4, 2, 28);
    let sheet = cells("1000 0100 0010 2222, 01 00 00 00 00 00");
    assert_eq!(bits(&settings, &sheet), [1, 0, 0, 0]);
    assert!(!has_a_past(&settings, &sheet));
    for whole in [
        "1000 0100 0010 2222, 00 00 00 00 00 00",
        "1010 0110 0010 2222, 01 02 10 11 00 00",
    ] {
        assert!(has_a_past(&settings, &cells(whole)), "{whole}");
    }
}

/// The page has this table, as a paragraph of its own.
fn has_table(table: &str) {
    says(&format!("\n\n{}\n\n", table.trim()));
}

/// What the command says where the page calls it, up to an empty line or the block's end.
#[test]
fn the_past_of_a_plain_sheet() {
    let page = std::fs::read_to_string(PAGE).unwrap();
    let calls: Vec<&str> = page.split("\npast ").skip(1).collect();
    assert_eq!(calls.len(), 2);
    for call in calls {
        let mut lines = call.lines();
        let words = lines.next().unwrap().split_whitespace();
        let words: Vec<String> = words.map(String::from).collect();
        let told = lines.take_while(|line| !line.is_empty() && !line.starts_with("```"));
        assert!(said(&words).text.lines().eq(told), "{words:?}");
    }
}

#[test]
fn sheets_refused_for_the_order_of_their_blocks() {
    has_table(&refused::table().unwrap());
}

#[test]
fn accepted_plain_sheets_have_a_past() {
    has_table(&past::table().unwrap());
}

/// The sheet that the search names, why no run ends in it, and what was searched.
#[test]
fn the_smallest_staged_sheets_have_none() {
    says("With k = 4, L = 1 and n = 34 the sheet 1111 0000 0000 0000, 100 000 000 000 000 000 is accepted and reads 0000, and no run");
    says("the plain guarantee, which is 7 here; this sheet has 4 in its blocks");
    says("It is one of the smallest by the levels raised, of which it has 5.");
    let settings = accept(1, 4, 1, 34);
    let sheet = cells("1111 0000 0000 0000, 100 000 000 000 000 000");
    assert_eq!(bits(&settings, &sheet), [0; 4]);
    assert_eq!((sum(&sheet), sum(&sheet[..16])), (5, 4));
    assert_eq!(accept(0, 4, 1, 16).guarantee(), 7);
    assert!(!has_a_past(&settings, &sheet));
    let found = later::table();
    let (table, named) = found.split_once("\n\n").unwrap();
    has_table(table);
    assert!(named.contains("1111 0000 0000 0000, 100 000 000 000 000 000, with 5 levels"));
}
