//! The comparison finds nothing against the model itself, and tells all else apart.

use second::compare::{Case, Comparison, Group, Impostor, Model, Plan, Reply, Size};
use second::Flaw;

const PLAN: Plan = Plan {
    seed: 7,
    calls: 3_000,
    files: 60,
    size: Size::Light,
    exact: false,
    trace: false,
};

fn check(group: &Group) {
    println!("{}", group.text);
    assert!(group.passed, "{} {:?}", group.text, group.difference);
}

#[test]
fn the_model_is_the_model() {
    PLAN.library(&Model(Flaw::None), &mut |group| check(&group));
    PLAN.program(&Model(Flaw::None), &mut |group| check(&group));
}

#[test]
fn every_flaw_and_impostor_is_told_apart() {
    let mut parts = 0;
    PLAN.self_check(&mut |group| {
        check(&group);
        parts += 1;
    });
    let in_the_program = 9;
    let libraries = 1 + Flaw::ALL.len() + Impostor::ALL.len();
    assert_eq!(parts, libraries + in_the_program);
}

#[test]
fn a_difference_names_a_case_that_still_differs() {
    let library = Model(Flaw::SecondEmpty);
    let mut named = 0;
    PLAN.library(&library, &mut |group| {
        let Some(difference) = group.difference else {
            return;
        };
        let case: Case = difference.lines().last().unwrap().trim().parse().unwrap();
        assert!(Comparison::new(&library, true, false).replay(&case).0);
        assert!(case.sheet.iter().filter(|&&level| level > 0).count() <= 12);
        named += 1;
    });
    assert!(named >= 3, "{named}");
}

#[test]
fn a_case_that_is_alike_gives_the_reply() {
    let text = "change 0,2,1,4,2,0,0 bit 1 places 2 sheet 1,0*3";
    let case: Case = text.parse().unwrap();
    let done = Reply {
        answer: 0,
        value: 1,
    };
    let mut comparison = Comparison::new(&Model(Flaw::None), false, false);
    assert_eq!(comparison.compare(&case), Some(done));
    assert_eq!(comparison.sheet(), [1, 0, 0, 1]);
    let mut comparison = Comparison::new(&Impostor::RaisesNothing, false, false);
    assert_eq!(comparison.compare(&case), None);
    let tally = comparison.take_tally();
    assert_eq!((tally.cases, tally.differences), (1, 1));
}
