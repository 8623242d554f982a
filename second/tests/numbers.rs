//! The numbers on both sides, the order of checks, refusals, tiny sheets and runs to Erase.

mod common;

use common::{accept, bits, cells, checked_change, least, stage, sum};
use second::compare::example;
use second::drive::drive;
use second::random::Random;
use second::{change, erase, read, Answer, Settings};
use std::collections::HashMap;

#[test]
fn answers_have_their_numbers_and_values() {
    let answers = [
        Answer::Done(5),
        Answer::BadShape,
        Answer::BadLength,
        Answer::ShortOutput,
        Answer::BadBit,
        Answer::BadLevel(6),
        Answer::BadSheet,
        Answer::Erase,
        Answer::BadRecord,
    ];
    assert_eq!(answers.map(Answer::number), [0, 1, 2, 3, 4, 5, 6, 7, 8]);
    assert_eq!(answers.map(Answer::value), [5, 0, 0, 0, 0, 6, 0, 0, 0]);
}

/// The block holds this bit and value, and its next step is the given one, after full blocks too.
fn check_block(block: &str, bit: usize, value: u8, next: &str) {
    let settings = accept(0, 4, 2, 16);
    for place in 0..4 {
        let mut sheet = vec![0; 16];
        sheet[..4 * place].fill(2);
        sheet[4 * place..][..4].copy_from_slice(&cells(block));
        let mut expected = vec![0; 4];
        expected[bit] = value;
        assert_eq!(bits(&settings, &sheet), expected, "{block}");
        assert_eq!(checked_change(&settings, &mut sheet, bit), Answer::Done(1));
        assert_eq!(sheet[4 * place..][..4], cells(next), "{block}");
    }
}

#[test]
fn blocks_on_a_cycle() {
    check_block("2221", 0, 1, "2222");
    check_block("1222", 1, 1, "2222");
    check_block("0220", 1, 0, "0221");
    check_block("2022", 2, 0, "2122");
    check_block("2002", 3, 0, "2102");
}

#[test]
fn blocks_on_no_cycle() {
    let settings = accept(0, 4, 2, 16);
    for block in ["1100", "2020", "1111"] {
        let mut sheet = cells(&format!("{block} 0000 0000 0000"));
        assert_eq!(read(&settings, &sheet, &mut [0; 4]), Answer::BadSheet);
        assert_eq!(change(&settings, &mut sheet, 0), Answer::BadSheet);
    }
}

#[test]
fn settings_and_guarantees() {
    let guarantee = |kind, k, top, n| accept(kind, k, top, n).guarantee();
    let refused = |kind, k, top, n| {
        assert_eq!(
            Settings::accept(kind, k, top, n),
            (Answer::BadShape, Settings::default())
        );
    };
    assert_eq!(guarantee(0, 2, 1, 4), 3);
    refused(0, 2, 1, 3);
    refused(0, 3, 1, 9);
    assert_eq!(accept(0, 3, 2, 9).m, 3);
    assert_eq!(guarantee(0, 4, 2, 16), 11);
    assert_eq!(guarantee(0, 4, 2, 19), 11);
    assert_eq!(guarantee(0, 4, 2, 20), 19);
    let staged = accept(1, 4, 2, 28);
    assert_eq!(
        (staged.m, staged.s, staged.w, staged.guarantee()),
        (4, 2, 2, 17)
    );
    refused(1, 4, 2, 27);
    assert_eq!(guarantee(0, 64, 15, 16_384), 185_343);
    assert_eq!(guarantee(1, 64, 15, 16_384), 224_355);
    for k in [0, 1, 65] {
        refused(0, k, 2, 16_384);
    }
    for k in [0, 1, 2, 3, 6, 12, 63, 65, 128] {
        refused(1, k, 2, 16_384);
    }
    for kind in [0, 1] {
        refused(kind, 4, 0, 16_384);
        refused(kind, 4, 256, 16_384);
        refused(kind, 4, 2, 16_385);
        accept(kind, 4, 255, 16_384);
    }
    refused(2, 4, 2, 16_384);
}

#[test]
fn any_four_numbers() {
    let high = 1 << 32;
    let numbers = [
        0,
        1,
        2,
        4,
        64,
        255,
        16_384,
        high,
        high + 1,
        high + 4,
        1 << 63,
        u64::MAX,
    ];
    for kind in numbers {
        for k in numbers {
            for top in numbers {
                for n in numbers {
                    let (answer, settings) = Settings::accept(kind, k, top, n);
                    let given = [settings.kind, settings.k, settings.top, settings.n];
                    match answer {
                        Answer::Done(_) => {
                            assert_eq!(given.map(|x| x as u64), [kind, k, top, n]);
                        }
                        _ => assert_eq!(settings, Settings::default()),
                    }
                }
            }
        }
    }
}

#[test]
fn the_staged_sheet_of_28() {
    let settings = accept(1, 4, 2, 28);
    let mut sheet = cells("1000 0100 0010 2222 000000 000000");
    assert_eq!(bits(&settings, &sheet), [1, 1, 1, 0]);
    let mut step = |bit, raised, after: &str| {
        assert_eq!(
            checked_change(&settings, &mut sheet, bit),
            Answer::Done(raised)
        );
        assert_eq!(sheet, cells(after));
        bits(&settings, &sheet)
    };
    let after = step(3, 8, "1010 0110 0010 2222 01 02 10 11 00 00");
    assert_eq!(after, [1, 1, 1, 1]);
    step(1, 1, "1020 0110 0010 2222 01 02 10 11 00 00");
    step(1, 1, "1021 0110 0010 2222 01 02 10 11 00 00");
    step(1, 3, "1022 0110 0010 2222 01 22 10 11 00 00");
    step(1, 3, "1022 0110 1010 2222 01 22 10 11 02 00");
}

/// What the drive program prints.
fn lines(input: &[u8]) -> String {
    let mut output = Vec::new();
    drive(input, &mut output).unwrap();
    String::from_utf8(output).unwrap()
}

#[test]
fn the_drive_example() {
    let records = example();
    let expected =
        "0 3 0 00\n0 1 1 10\n0 1 2 11\n0 1 3 01\n7 0 3 01\n4 0 3 01\n0 1 3 01\n8 0 3 01\n";
    assert_eq!(lines(&records), expected);
    for cut in 1..8 {
        let input = [&records[..8], &records[8..8 + cut]].concat();
        assert_eq!(lines(&input), "0 3 0 00\n8 0 0 00\n");
    }
}

#[test]
fn the_drive_program_refuses() {
    let new = [1, 0, 2, 1, 4, 0, 0, 0];
    let other = [1, 1, 4, 2, 28, 0, 0, 0];
    let raise = [2, 0, 2, 1, 4, 0, 1, 0];
    assert_eq!(lines(&[]), "");
    assert_eq!(lines(&[1]), "8 0 0 -\n");
    assert_eq!(lines(&raise), "8 0 0 -\n");
    assert_eq!(lines(&[3, 0, 2, 1, 4, 0, 0, 0]), "8 0 0 -\n");
    assert_eq!(lines(&[1, 0, 2, 1, 3, 0, 0, 0]), "1 0 0 -\n");
    for (refused, line) in [
        ([1, 0, 2, 1, 3, 0, 0, 0], "1 0 1 01\n"),   // too few cells
        ([1, 2, 2, 1, 4, 0, 0, 0], "1 0 1 01\n"),   // no such kind
        ([1, 0, 2, 1, 3, 0, 1, 0], "8 0 1 01\n"),   // and a bit byte not used
        ([1, 0, 2, 1, 3, 0, 0, 1], "8 0 1 01\n"),   // and a last byte
        ([0, 0, 2, 1, 4, 0, 0, 0], "8 0 1 01\n"),   // unknown operation
        ([3, 0, 2, 1, 4, 0, 1, 0], "8 0 1 01\n"),   // bit byte not used
        ([2, 0, 2, 1, 4, 0, 1, 9], "8 0 1 01\n"),   // last byte
        ([2, 0, 2, 1, 5, 0, 2, 0], "8 0 1 01\n"),   // other settings of the same shape
        ([2, 9, 2, 1, 4, 0, 1, 0], "8 0 1 01\n"),   // other kind
        ([3, 0, 2, 1, 4, 1, 0, 0], "8 0 1 01\n"),   // n is 260
        ([2, 0, 2, 1, 4, 0, 255, 0], "4 0 1 01\n"), // bit
    ] {
        let expected = format!("0 3 0 00\n0 1 1 01\n{line}0 1 2 00\n0 17 0 0000\n");
        let again = [2, 0, 2, 1, 4, 0, 1, 0];
        let mut input = [new, raise, refused, again, other].concat();
        // The second change of bit 1 fills its block.
        assert_eq!(lines(&input), expected, "{refused:?}");
        input.push(7);
        assert_eq!(lines(&input), expected + "8 0 0 0000\n");
    }
}

/// Two bytes of n, and more records than one piece holds.
#[test]
fn a_long_drive() {
    let mut input = vec![1, 0, 8, 2, 0, 4, 0, 0];
    let mut expected = String::from("0 1943 0 00000000\n");
    for round in 1..=1943 {
        input.extend([2, 0, 8, 2, 0, 4, 3, 0]);
        let bit = round % 2;
        expected += &format!("0 1 {round} 000{bit}0000\n");
    }
    for _ in 0..20_000 {
        input.extend([3, 0, 8, 2, 0, 4, 0, 0]);
        expected += "0 1 1943 00010000\n";
    }
    assert_eq!(lines(&input), expected);
}

/// The answer of the lowest check that fails, if any does.
fn named(number: Option<u32>) -> Answer {
    match number {
        Some(1) => Answer::BadShape,
        Some(2) => Answer::BadLength,
        Some(3) => Answer::ShortOutput,
        Some(4) => Answer::BadBit,
        Some(5) => Answer::BadLevel(1),
        Some(6) => Answer::BadSheet,
        _ => Answer::Erase,
    }
}

/// Every set of faults at once: the lowest number is answered, and nothing lent changes.
#[test]
fn checks_run_in_number_order() {
    let good = accept(0, 2, 1, 5);
    for faults in 0..64 {
        let has = |number: u32| faults >> (number - 1) & 1 == 1;
        let mut settings = good;
        settings.m += usize::from(has(1));
        let mut sheet = cells("10 11 0");
        if has(5) {
            sheet[1..4].copy_from_slice(&[2, 1, 255]);
        }
        sheet[4] = u8::from(has(6));
        sheet.extend(has(2).then_some(0));
        let bit = if has(4) { 2 } else { 1 };
        let mut output = vec![7; if has(3) { 1 } else { 4 }];
        let lowest = |checks: &[u32]| checks.iter().copied().find(|&number| has(number));
        let before = sheet.clone();
        assert_eq!(
            change(&settings, &mut sheet, bit),
            named(lowest(&[1, 2, 4, 5, 6]))
        );
        let answer = read(&settings, &sheet, &mut output);
        match lowest(&[1, 2, 3, 5, 6]) {
            None => assert_eq!((answer, &output[..]), (Answer::Done(1), &[1, 0, 7, 7][..])),
            refused => {
                assert_eq!(answer, named(refused));
                assert!(output.iter().all(|&place| place == 7));
            }
        }
        assert_eq!(sheet, before);
        let answer = erase(&settings, &mut sheet);
        match lowest(&[1, 2]) {
            None => assert_eq!((answer, sum(&sheet)), (Answer::Done(3), 0)),
            refused => assert_eq!((answer, sheet), (named(refused), before)),
        }
    }
}

#[test]
fn records_that_acceptance_never_gives() {
    for good in [
        accept(0, 4, 2, 19),
        accept(1, 8, 3, 200),
        Settings::default(),
    ] {
        let numbers = [0, 1, 2, 3, 4, 8, 19, 20, 200, 16_385, 1 << 40, usize::MAX];
        for (field, number) in (0..7).flat_map(|field| numbers.map(|number| (field, number))) {
            let mut record = good;
            *[
                &mut record.kind,
                &mut record.k,
                &mut record.top,
                &mut record.n,
                &mut record.m,
                &mut record.s,
                &mut record.w,
            ][field] = number;
            let given = [record.kind, record.k, record.top, record.n].map(|x| x as u64);
            let (_, again) = Settings::accept(given[0], given[1], given[2], given[3]);
            if again == record && record.k > 0 {
                continue;
            }
            let mut sheet = vec![1; good.n];
            assert_eq!(record.guarantee(), 0);
            assert_eq!(erase(&record, &mut sheet), Answer::BadShape);
            assert_eq!(read(&record, &sheet, &mut [7; 64]), Answer::BadShape);
            assert_eq!(change(&record, &mut sheet, 0), Answer::BadShape);
            assert_eq!(sheet, vec![1; good.n]);
        }
    }
}

/// The reading's answer, after checking that a change is refused alike and that neither call
/// changes what it was lent.
fn refusal(settings: &Settings, sheet: &[u8]) -> Answer {
    let (mut output, mut after) = ([7; 65], sheet.to_vec());
    let answer = read(settings, sheet, &mut output);
    assert_eq!(output, [7; 65]);
    assert_eq!(change(settings, &mut after, 0), answer);
    assert_eq!(after, sheet);
    answer
}

/// Stage 2 of three: batch 1 is looked at for BadLevel only, spare cells for that and BadSheet.
#[test]
fn staged_refusals() {
    let settings = accept(1, 8, 2, 64 + 84 + 3);
    let sheet = |changes: &[(usize, &str)]| {
        let mut sheet = vec![2; 151];
        sheet[148..].fill(0);
        for &(first, digits) in changes {
            let levels = cells(digits);
            sheet[first..first + levels.len()].copy_from_slice(&levels);
        }
        sheet
    };
    let accepted = |changes: &[(usize, &str)]| bits(&settings, &sheet(changes));
    let refused = |changes: &[(usize, &str)]| refusal(&settings, &sheet(changes));
    assert_eq!(accepted(&[]), [0; 8]);
    assert_eq!(accepted(&[(64, "012 111 111 000")]), [0; 8]);
    assert_eq!(refused(&[(64, "3")]), Answer::BadLevel(64));
    assert_eq!(refused(&[(149, "39")]), Answer::BadLevel(149));
    assert_eq!(refused(&[(150, "2")]), Answer::BadSheet);
    assert_eq!(refused(&[(106, "001")]), Answer::BadSheet); // no block for the index
    assert_eq!(refused(&[(0, "21")]), Answer::BadSheet); // no index for the block
    assert_eq!(accepted(&[(0, "21"), (145, "022")])[7], 1); // index 8
    assert_eq!(refused(&[(0, "21"), (145, "100")]), Answer::BadSheet); // index 9
    assert_eq!(accepted(&[(0, "21 01"), (106, "002 001")])[..2], [1, 1]);
    assert_eq!(accepted(&[(0, "21 01"), (106, "000 000")]), [0; 8]); // both free
    assert_eq!(refused(&[(0, "21 01"), (106, "002 002")]), Answer::BadSheet);
}

/// What each block of k cells on a cycle is, by taking the steps one by one.
fn cycles(k: usize, top: u8) -> HashMap<Vec<u8>, Option<(usize, u8)>> {
    let mut table = HashMap::new();
    for start in 0..k {
        let mut block = vec![0; k];
        let mut parity = 0;
        for j in 0..k {
            for _ in 0..top {
                block[(start + j) % k] += 1;
                parity ^= 1;
                table.insert(block.clone(), Some((start, parity)));
            }
        }
        table.insert(block, None);
    }
    table.insert(vec![0; k], None);
    table
}

/// Whether an empty block stands before one that isn't, or the last that isn't empty is full and
/// all bits have been found.
fn breaks_order(blocks: &[&[u8]], top: u8, found: &[Option<u8>]) -> bool {
    let all = |block: &[u8], level: u8| block.iter().all(|&cell| cell == level);
    let used: Vec<usize> = (0..blocks.len())
        .filter(|&place| !all(blocks[place], 0))
        .collect();
    let Some(&last) = used.last() else {
        return false;
    };
    let all_found = found.iter().all(Option::is_some);
    used.len() <= last || (all(blocks[last], top) && all_found)
}

/// The bits by the table, or None for a sheet that breaks the rules.
fn bits_by_table(
    table: &HashMap<Vec<u8>, Option<(usize, u8)>>,
    settings: &Settings,
    sheet: &[u8],
) -> Option<Vec<u8>> {
    let Settings { k, top, m, .. } = *settings;
    let mut found = vec![None; k];
    let blocks: Vec<&[u8]> = sheet[..m * k].chunks_exact(k).collect();
    for &block in &blocks {
        if let Some((bit, value)) = *table.get(block)? {
            if found[bit].replace(value).is_some() {
                return None;
            }
        }
    }
    if breaks_order(&blocks, top as u8, &found) {
        return None;
    }
    let spare_is_0 = sheet[m * k..].iter().all(|&level| level == 0);
    spare_is_0.then(|| found.iter().map(|value| value.unwrap_or(0)).collect())
}

/// Every sheet of tiny plain settings, every bit.
#[test]
fn tiny_sheets() {
    for (k, top, n) in [(2, 1, 4), (2, 1, 6), (2, 1, 9), (2, 2, 5), (3, 2, 9)] {
        let settings = accept(0, k, top, n);
        let (table, levels) = (cycles(settings.k, top as u8), top + 1);
        for code in 0..levels.pow(n as u32) {
            let sheet: Vec<u8> = (0..n)
                .map(|cell| (code / levels.pow(cell as u32) % levels) as u8)
                .collect();
            let Some(expected) = bits_by_table(&table, &settings, &sheet) else {
                assert_eq!(read(&settings, &sheet, &mut [0; 3]), Answer::BadSheet);
                assert_eq!(change(&settings, &mut sheet.clone(), 0), Answer::BadSheet);
                continue;
            };
            assert_eq!(bits(&settings, &sheet), expected);
            let blocks: Vec<&[u8]> = sheet[..settings.m * settings.k]
                .chunks(settings.k)
                .collect();
            let empty = blocks.iter().any(|block| sum(block) == 0);
            for bit in 0..settings.k {
                let holds = |block: &&[u8]| table[*block].is_some_and(|held| held.0 == bit);
                let answer = checked_change(&settings, &mut sheet.clone(), bit);
                match empty || blocks.iter().any(holds) {
                    true => assert_eq!(answer, Answer::Done(1)),
                    false => assert_eq!(answer, Answer::Erase),
                }
            }
        }
    }
}

/// How many changes an erased sheet takes before Erase.
fn run(settings: &Settings, mut next: impl FnMut(u64) -> usize) -> u64 {
    let mut sheet = vec![1; settings.n];
    assert_eq!(
        erase(settings, &mut sheet),
        Answer::Done(settings.guarantee())
    );
    let mut made = 0;
    loop {
        let bit = next(made);
        match change(settings, &mut sheet, bit) {
            Answer::Done(raised) => assert!(raised == 1 || settings.kind == 1),
            Answer::Erase => return made,
            other => panic!("{other:?} after {made} changes"),
        }
        made += 1;
        if settings.kind == 0 {
            assert_eq!(sum(&sheet), made);
        }
    }
}

/// Bits 1 to k - 1 once each, then bit 0.
fn adversary(k: usize) -> impl FnMut(u64) -> usize {
    move |made| {
        if made < k as u64 - 1 {
            made as usize + 1
        } else {
            0
        }
    }
}

#[test]
fn runs_reach_the_guarantee() {
    let mut random = Random::new(1);
    for (k, top) in [(4, 1), (4, 2), (4, 3), (8, 1), (8, 2), (8, 7), (16, 3)] {
        for kind in [0, 1] {
            for extra in [0, 1, 3, 4, 9] {
                let n = least(kind, k, top).n as u64 + extra;
                let settings = accept(kind, k, top, n);
                let guarantee = settings.guarantee();
                for _ in 0..10 {
                    assert!(run(&settings, |_| random.below(settings.k)) >= guarantee);
                }
                assert!(run(&settings, |made| (made % k) as usize) >= guarantee);
                assert!(run(&settings, |_| 0) >= guarantee);
                let worst = run(&settings, adversary(settings.k));
                assert!(worst == guarantee || (kind == 1 && worst > guarantee));
            }
        }
    }
}

#[test]
fn the_largest_plain_run() {
    let settings = accept(0, 64, 15, 16_384);
    assert_eq!(run(&settings, adversary(64)), settings.guarantee());
}

#[test]
fn the_largest_staged_run() {
    let settings = accept(1, 64, 15, 16_384);
    let mut random = Random::new(2);
    assert!(run(&settings, |_| random.below(64)) >= settings.guarantee());
}

/// Every step of random runs: the named bit alone changes, no level falls, no stage falls.
#[test]
fn staged_runs_step_by_step() {
    let mut random = Random::new(3);
    let mut steps_at = [0; 6];
    for (k, top) in [
        (4, 1),
        (4, 2),
        (4, 3),
        (8, 1),
        (8, 2),
        (16, 1),
        (16, 3),
        (32, 1),
        (64, 2),
    ] {
        let settings = least(1, k, top);
        for _ in 0..3 {
            let mut sheet = vec![0; settings.n];
            let often = random.below(settings.k);
            let (mut before, mut made) = (0, 0);
            loop {
                let any = random.below(settings.k);
                let bit = random.one_of(&[often, any, any]);
                if checked_change(&settings, &mut sheet, bit) == Answer::Erase {
                    break;
                }
                let after = stage(&settings, &sheet);
                assert!(after >= before);
                (before, made) = (after, made + 1);
                steps_at[after] += 1;
            }
            assert!(made >= settings.guarantee());
        }
    }
    assert!(steps_at.iter().all(|&steps| steps > 0), "{steps_at:?}");
}
