//! The past of plain sheets: which of them a run of changes ends in, and that run. One of the smallest
//! accepted staged sheets that have none. What the command for support says of it.

mod common;

use common::{accept, bits, cells, group_tells, has_a_past, sum};
use second::command::said;
use second::compare::past::{answered, printed, settings, table, Counts};
use second::compare::refused::{self, assignments, Refused};
use second::past::{later, length, replay, run_to, told, Turns};
use second::random::Random;
use second::sheets::{accepted, every, some_settings, Damage};
use second::{read, Answer, Flaw, Settings};
use std::process::Command;

/// Readings that get the order of blocks wrong.
const READINGS: [Flaw; 6] = [
    Flaw::OrderIgnored,
    Flaw::HoleAccepted,
    Flaw::HoleBeforeFull,
    Flaw::FullLastAccepted,
    Flaw::LastByNumber,
    Flaw::FullLastNever,
];

/// Of every assignment of levels: a reading is Done, changes reach the sheet and the run that is
/// printed for it ends in it, with as many changes as levels; or it is BadSheet, not reached, and no
/// run is printed.
#[test]
fn every_sheet_of_tiny_settings() {
    assert_eq!(settings().len(), 11);
    for settings in settings() {
        let counts = Counts::of(&settings).unwrap();
        println!("{settings:?}: {counts:?}");
        assert_eq!(counts.assignments, assignments(&settings));
        let accepted = Refused::by_formulas(&settings).accepted;
        let found = [counts.accepted, counts.reached, counts.with_run];
        assert_eq!(found, [accepted; 3]);
    }
}

/// Whether a reading is Done exactly for the sheets that have a run, where readings have this flaw.
fn readings_agree(settings: &Settings, flaw: Flaw) -> bool {
    every(settings.n, settings.top as u8).all(|sheet| {
        let answer = flaw.during(|| read(settings, &sheet, &mut [0; 64]));
        matches!(answer, Answer::Done(_)) == run_to(settings, &sheet).is_ok()
    })
}

/// Whether all runs end in their sheets, where changes have this flaw.
fn runs_replay(settings: &Settings, flaw: Flaw) -> bool {
    every(settings.n, settings.top as u8).all(|sheet| match run_to(settings, &sheet) {
        Ok(run) => flaw.during(|| replay(settings, &run)) == Ok(sheet),
        Err(_) => true,
    })
}

#[test]
fn flaws_show() {
    let settings = accept(0, 2, 1, 8);
    assert!(readings_agree(&settings, Flaw::None) && runs_replay(&settings, Flaw::None));
    for flaw in READINGS {
        assert!(!readings_agree(&settings, flaw), "{flaw:?}");
    }
    assert!(!runs_replay(&settings, Flaw::SecondEmpty));
    for flaw in READINGS.into_iter().chain([Flaw::SecondEmpty]) {
        let counts = flaw.during(|| Counts::of(&settings));
        println!("{flaw:?}: {}", counts.unwrap_err());
        let table = flaw.during(|| said(&[String::from("--table")]));
        assert_eq!(table.status, 2, "{flaw:?}");
        group_tells("past", flaw);
    }
}

/// Each of the three ways to count is one by itself: a sheet without a run that is refused by another
/// answer than BadSheet, one that is not reached though it has a run, one that is reached though it has
/// none, a run that ends elsewhere, and one that is not printed.
#[test]
fn each_count_shows() {
    let settings = accept(0, 2, 1, 8);
    let reached = refused::reached(&settings);
    let [sheet, hole] = ["11 10 00 00", "11 00 10 00"].map(cells);
    assert!(Counts::with(&settings, answered, &reached, printed).is_ok());
    let otherwise = |settings: &Settings, of: &[u8]| match of == hole {
        true => Answer::BadLevel(0),
        false => answered(settings, of),
    };
    assert!(Counts::with(&settings, otherwise, &reached, printed).is_err());
    let mut fewer = reached.clone();
    assert!(fewer.remove(&sheet));
    assert!(Counts::with(&settings, answered, &fewer, printed).is_err());
    let mut more = reached.clone();
    assert!(more.insert(hole.clone()));
    assert!(Counts::with(&settings, answered, &more, printed).is_err());
    let elsewhere = |settings: &Settings, of: &[u8]| {
        let mut run = printed(settings, of)?;
        if of == sheet {
            run[1].bit = 1;
        }
        Ok(run)
    };
    assert!(Counts::with(&settings, answered, &reached, elsewhere).is_err());
    let none = |settings: &Settings, of: &[u8]| match of == sheet {
        true => Err(1),
        false => printed(settings, of),
    };
    assert!(Counts::with(&settings, answered, &reached, none).is_err());
}

/// A line of a printed run.
fn parsed(line: &str) -> Turns {
    line.parse().unwrap()
}

#[test]
fn larger_sheets() {
    let mut random = Random::new(6);
    for (asked, sheets) in [
        ([2, 255, 9], 40),
        ([5, 4, 44], 40),
        ([8, 3, 100], 40),
        ([63, 2, 4_000], 4),
        ([64, 1, 4_160], 20),
    ] {
        let [k, top, n] = asked;
        let settings = accept(0, k, top, n);
        for _ in 0..sheets {
            let sheet = accepted(&mut random, &settings, 0);
            let run = run_to(&settings, &sheet).unwrap();
            assert_eq!(length(&run), sum(&sheet));
            let printed = told::plain(k as u8, top as u8, &sheet).text;
            let lines: Vec<Turns> = printed.lines().skip(1).map(parsed).collect();
            assert_eq!(lines, run);
            assert_eq!(replay(&settings, &run), Ok(sheet), "{asked:?}");
        }
    }
}

/// Of any size, sound or damaged: a run with as many changes as levels where a reading is Done, and
/// none where it is refused, for the same reason.
#[test]
fn a_reading_says_whether_there_is_one() {
    let (mut random, mut counts) = (Random::new(7), [0; 9]);
    for _ in 0..1000 {
        let settings = some_settings(&mut random, 0);
        let sound = accepted(&mut random, &settings, 0);
        let damaged = Damage::ALL.map(|damage| damage.apply(&mut random, &settings, &sound));
        for sheet in damaged.into_iter().flatten().chain([sound]) {
            let answer = read(&settings, &sheet, &mut [0; 64]);
            match run_to(&settings, &sheet) {
                Ok(run) => assert_eq!((length(&run), answer.number()), (sum(&sheet), 0)),
                Err(refusal) => assert_eq!(refusal, answer),
            }
            counts[answer.number() as usize] += 1;
        }
    }
    let seen: Vec<usize> = (0..9).filter(|&number| counts[number] > 500).collect();
    assert_eq!(seen, [0, 2, 5, 6], "{counts:?}");
}

/// A sheet of another length with a level too high is BadLength, as for a call.
#[test]
fn length_before_levels() {
    let settings = accept(0, 4, 2, 16);
    assert_eq!(run_to(&settings, &[3; 17]), Err(Answer::BadLength));
    assert_eq!(run_to(&settings, &[3; 16]), Err(Answer::BadLevel(0)));
}

/// One stretch for each block in use, and a full one by the lowest bit without an active block.
#[test]
fn a_run() {
    let settings = accept(0, 4, 2, 27);
    let sheet = cells("2222 0220 2222 2000 2222 0001 000");
    let run = run_to(&settings, &sheet).unwrap();
    let expected = [(0, 8), (1, 4), (0, 8), (0, 2), (2, 8), (3, 1)];
    assert_eq!(run, expected.map(|(bit, times)| Turns { bit, times }));
    assert_eq!(replay(&settings, &run), Ok(sheet));
    let once_more = [&run[..], &[Turns { bit: 2, times: 1 }]].concat();
    assert_eq!(replay(&settings, &once_more), Err(Answer::Erase));
    let printed = told::plain(4, 2, &replay(&settings, &run).unwrap());
    let lines = [
        "31 changes from an erased sheet end in it:",
        "bit 0, 8 times",
        "bit 1, 4 times",
        "bit 0, 8 times",
        "bit 0, 2 times",
        "bit 2, 8 times",
        "bit 3, once",
    ];
    assert_eq!((printed.text, printed.status), (lines.join("\n") + "\n", 0));
}

/// What is no line of a run.
#[test]
fn no_stretch() {
    for text in [
        "",
        "bit 1",
        "bit x, once",
        "bit 1, 2",
        "bit 1, x times",
        "pen 1, once",
    ] {
        assert!(text.parse::<Turns>().is_err(), "{text}");
    }
}

/// No plain sheet has the settings.
#[test]
fn settings_of_no_plain_sheet() {
    let staged = accept(1, 4, 2, 28);
    assert_eq!(run_to(&staged, &[0; 28]), Err(Answer::BadShape));
    let zeros = Settings::default();
    assert_eq!(run_to(&zeros, &[]), Err(Answer::BadShape));
    assert_eq!(replay(&zeros, &[]), Err(Answer::BadShape));
}

/// How many sheets have so many levels raised: cell by cell, by the levels that it can have.
fn assignments_of(settings: &Settings, levels: usize) -> u64 {
    let mut counts = vec![0; levels + 1];
    counts[0] = 1;
    for _ in 0..settings.n {
        let before = |sum: usize| counts[sum.saturating_sub(settings.top)..=sum].iter().sum();
        counts = (0..=levels).map(before).collect::<Vec<u64>>();
    }
    counts[levels]
}

/// With up to 5 levels raised every accepted sheet of the small staged settings is at stage 0 and
/// reached, save for k = 4 and L = 1, where some at stage 1 have 5 and none of those is reached.
#[test]
fn the_smallest_staged_sheet_without_a_past() {
    let mut found = Vec::new();
    let searched = [
        accept(1, 4, 1, 34),
        accept(1, 4, 2, 28),
        accept(1, 4, 5, 22),
    ];
    assert_eq!(later::searched(), searched);
    for settings in searched {
        let layers = later::layers(&settings);
        assert_eq!(layers.len(), 6);
        for (levels, layer) in layers.into_iter().enumerate() {
            println!("{settings:?}, {levels} levels: {layer:?}");
            assert_eq!(layer.sheets, assignments_of(&settings, levels));
            assert_eq!(layer.stage_0_reached, layer.stage_0);
            assert_eq!(layer.later_reached, 0);
            assert_eq!(layer.later > 0, layer.without_past.is_some());
            found.extend(layer.without_past.map(|sheet| (settings, levels, sheet)));
        }
    }
    let (settings, sheet) = (
        accept(1, 4, 1, 34),
        "1111 0000 0000 0000, 100 000 000 000 000 000",
    );
    assert_eq!(found, [(settings, 5, cells(sheet))]);
    assert_eq!(later::shown(&settings, &cells(sheet)), sheet);
    assert_eq!(bits(&settings, &cells(sheet)), [0; 4]);
    assert!(!has_a_past(&settings, &cells(sheet)));
}

/// The command's exit status, and what it writes on standard output and on standard error.
fn past(words: &str) -> (i32, String, String) {
    let command = Command::new(env!("CARGO_BIN_EXE_past"))
        .args(words.split_whitespace())
        .output()
        .unwrap();
    let [out, err] = [command.stdout, command.stderr].map(|text| String::from_utf8(text).unwrap());
    (command.status.code().unwrap(), out, err)
}

/// The levels of these cells as words.
fn words(levels: &[u8]) -> String {
    let words: Vec<String> = levels.iter().map(u8::to_string).collect();
    words.join(" ")
}

#[test]
fn the_command_tells_a_run() {
    for (blocks, told) in [
        (
            "2222 0220 0000 0000",
            "12 changes from an erased sheet end in it:\nbit 0, 8 times\nbit 1, 4 times\n",
        ),
        (
            "0010 0000 0000 0000",
            "1 change from an erased sheet ends in it:\nbit 2, once\n",
        ),
        (
            "0000 0000 0000 0000 000",
            "0 changes: it is an erased sheet\n",
        ),
    ] {
        let said = past(&format!("plain 4 2 {}", words(&cells(blocks))));
        assert_eq!(said, (0, String::from(told), String::new()));
    }
}

#[test]
fn the_command_says_why_there_is_none() {
    let broken = "none: the cells break the rules (BadSheet): no run of changes from an erased sheet ends in them\n";
    for (blocks, told) in [
        ("0000 2222 0000 0000", broken),
        ("1000 1000 0000 0000", broken),
        ("0000 0000 0000 0000 1", broken),
        ("1000 0100 0010 0001 2222", broken),
        (
            "0000 0300 0040 0000",
            "none: cell 5 is above the top level (BadLevel), where no call puts it\n",
        ),
    ] {
        let said = past(&format!("plain 4 2 {}", words(&cells(blocks))));
        assert_eq!(said, (1, String::from(told), String::new()));
    }
}

#[test]
fn the_command_takes_no_other_words() {
    let (status, usage, err) = past("--help");
    assert_eq!((status, &err[..]), (0, ""));
    assert!(usage.starts_with("usage: past plain BITS TOP LEVEL..: "));
    assert_eq!(past("-h"), (0, usage.clone(), String::new()));
    for words in [
        "",
        "plain",
        "plain 4",
        "plain 4 2",
        "both 4 2 0",
        "--table 1",
    ] {
        assert_eq!(past(words), (2, String::new(), usage.clone()), "{words}");
    }
    for (words, wrong) in [
        ("4 x 0", "x"),
        ("4 2 0 256 y", "256"),
        ("2 1 1,0,0,1", "1,0,0,1"),
    ] {
        let text = format!("'{wrong}' is no number from 0 to 255\n{usage}");
        assert_eq!(past(&format!("plain {words}")), (2, String::new(), text));
    }
    let text = "no plain sheet of 15 cells has 4 bits and the top level 2 (BadShape): are all levels given, each as a word?\n";
    let said = past(&format!("plain 4 2 {}", words(&[0; 15])));
    assert_eq!(said, (2, String::new(), String::from(text)));
    let (status, out, err) = past("staged 4 2 0 0 0");
    assert_eq!((status, &out[..]), (2, ""));
    assert!(err.starts_with("of staged sheets nothing is claimed: "));
}

/// A text that can't be written is told.
#[test]
fn the_command_says_what_it_can_not_write() {
    let full = std::fs::OpenOptions::new().write(true).open("/dev/full");
    let mut command = Command::new(env!("CARGO_BIN_EXE_past"));
    let command = command.args(["plain", "2", "1", "0", "0", "0", "0"]);
    let ended = command.stdout(full.unwrap()).output().unwrap();
    assert_eq!(ended.status.code(), Some(2));
    assert!(ended.stderr.starts_with(b"past: "));
}

/// As many cells and levels as there can be.
#[test]
fn the_command_takes_the_widest_sheets() {
    for (asked, line, blocks) in [
        ("64 255", "bit 0, 16320 times\n", 256),
        ("2 255", "bit 0, 510 times\n", 8_192),
    ] {
        let (status, out, _) = past(&format!("plain {asked} {}", words(&[255; 16_384])));
        let head = "4177920 changes from an erased sheet end in it:\n";
        assert_eq!((status, out), (0, head.to_string() + &line.repeat(blocks)));
    }
}

#[test]
fn the_command_prints_what_is_searched() {
    let (table, no_past) = (table().unwrap(), later::table());
    assert_eq!(table.lines().count(), 3 + settings().len());
    let last = "staged k = 4, L = 1, n = 34: no run ends in 1111 0000 0000 0000, 100 000 000 000 000 000, with 5 levels raised";
    assert_eq!(no_past.lines().last(), Some(last));
    assert_eq!(past("--table"), (0, table, String::new()));
    assert_eq!(past("--no-past"), (0, no_past, String::new()));
}
