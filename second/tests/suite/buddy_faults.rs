//! Faults of buddy checks that the harness must see early and make small.

use crate::faulty::{Fault, Faulty};
use crate::faulty_buddies::{
    BuddyFault, OF_CALLS, OF_CUTS, OF_NUMBERS, OF_REFUSALS, OF_REFUSED_CALLS, OF_SUPPORT,
    OF_VERDICTS,
};
use crate::faulty_lines;
use crate::posts::run_cases;
use second::call::Call;
use second::cases::{AnalysisCase, TextCase, WindowCase};
use second::compare::Case;
use second::screen_case::ScreenCase;
use second::text::parse;

fn shares<C: Case>(call: fn(C) -> Option<Call>, least_off: usize) {
    let calls: Vec<Call> = (0..3_000).filter_map(|index| call(C::generate(3, index))).collect();
    let of = |is: fn(&Call) -> bool| calls.iter().filter(|call| is(call)).count();
    let (none, on) = (of(|call| call.buddy.is_none()), of(|call| call.check().is_some()));
    let (all, off) = (calls.len(), of(|call| call.buddy.is_some_and(|buddy| !buddy.on)));
    assert!(all / 3 < none && none < all * 2 / 3, "{none} of {all} {}", C::KIND);
    assert!(all / 3 < on && on < all / 2, "{on} of {all} {}", C::KIND);
    assert!(off >= all * least_off / 100, "{off} of {all} {}", C::KIND);
}

/// A third to half of the requests have the check on.
#[test]
fn the_check_has_its_share() {
    shares::<AnalysisCase>(|case| Some(case.0), 15);
    shares::<WindowCase>(|case| Some(case.call), 15);
    shares::<ScreenCase>(|case| Some(case.call), 15);
    shares::<TextCase>(|case| parse(&case.text).ok(), 0);
}

/// So many generated requests of each kind, of any seed, show each fault of a check.
const ENOUGH: u64 = 500;
const SEEDS: u64 = 5;

/// The faults that so many cases of a seed do not show.
fn unseen<C: Case>(seed: u64, count: u64, faults: &[Fault]) -> Vec<Fault> {
    let mut left = faults.to_vec();
    for case in (0..count).map(|index| C::generate(seed, index)) {
        let expected = case.expected();
        left.retain(|fault| case.difference(&expected, &Faulty(*fault)).is_none());
    }
    left
}

fn seen_by<C: Case>(count: u64, of: &[&[BuddyFault]], others: &[Fault]) {
    let faults: Vec<Fault> = of.concat().into_iter().map(Fault::Buddies).collect();
    let faults = [&faults, others].concat();
    let left: Vec<(u64, Vec<Fault>)> =
        (0..SEEDS).map(|seed| (seed, unseen::<C>(seed, count, &faults))).collect();
    assert!(left.iter().all(|(_, left)| left.is_empty()), "{}: {left:?}", C::KIND);
}

#[test]
fn faults_of_checks_are_seen_early() {
    let of_answers: [&[BuddyFault]; 4] = [&OF_NUMBERS, &OF_SUPPORT, &OF_VERDICTS, &OF_CALLS];
    seen_by::<AnalysisCase>(
        ENOUGH,
        &[&of_answers[..], &[&OF_REFUSALS, &OF_REFUSED_CALLS]].concat(),
        &[],
    );
}

const OF_WINDOWS: [&[BuddyFault]; 5] =
    [&OF_NUMBERS, &OF_SUPPORT, &OF_CALLS, &OF_REFUSALS, &OF_REFUSED_CALLS];

#[test]
fn faults_of_checks_are_seen_early_in_windows() {
    seen_by::<WindowCase>(ENOUGH, &OF_WINDOWS, &OF_CUTS.map(Fault::Buddies));
}

#[test]
fn faults_of_checks_are_seen_early_in_screens() {
    // They have few stations; and where their cuts have more points together than the
    // grid, there is no cut.
    seen_by::<ScreenCase>(2 * ENOUGH, &OF_WINDOWS, &OF_CUTS.map(Fault::Buddies));
}

#[test]
fn faults_of_checks_are_seen_early_in_texts() {
    let of_lines = faulty_lines::ALL.map(Fault::Lines);
    seen_by::<TextCase>(ENOUGH, &[&OF_NUMBERS, &OF_SUPPORT, &OF_VERDICTS, &OF_REFUSALS], &of_lines);
}

#[test]
fn faults_of_checks_are_made_small() {
    let smallest = |fault: BuddyFault| {
        let failure = run_cases::<AnalysisCase>(&Faulty(Fault::Buddies(fault)), ENOUGH).failure;
        failure.expect("seen").smallest.0
    };
    for fault in OF_NUMBERS.into_iter().chain(OF_SUPPORT).chain(OF_VERDICTS).chain(OF_CALLS) {
        let call = smallest(fault);
        assert!(call.x.len() <= 6 && call.first_guess.len() <= 16, "{fault:?}: {call:?}");
        assert!(call.scans <= 3, "{fault:?}: {call:?}");
        let left_out = fault == BuddyFault::OnWhereLeftOut;
        assert_eq!(call.buddy.is_none(), left_out, "{fault:?}: {call:?}");
        let off = call.buddy.is_some_and(|buddy| !buddy.on);
        assert_eq!(off, fault == BuddyFault::ReadWhenOff, "{fault:?}: {call:?}");
    }
    for fault in OF_REFUSALS.into_iter().chain(OF_REFUSED_CALLS) {
        let call = smallest(fault);
        assert!(call.x.len() <= 1 && call.first_guess.len() <= 4, "{fault:?}: {call:?}");
    }
    assert_eq!(smallest(BuddyFault::Ignored).x.len(), 3);
    assert_eq!(smallest(BuddyFault::OneIsEnough).x.len(), 2);
    let check = |fault| smallest(fault).buddy.expect("given");
    assert_eq!(check(BuddyFault::Radius513Passes).radius, 513);
    assert_eq!(check(BuddyFault::Limit0Refused).limit, 0);
    assert!(!check(BuddyFault::TestedWhenOff).on);
}

#[test]
fn faults_of_cuts_are_made_small() {
    for fault in OF_CUTS {
        let failure = run_cases::<WindowCase>(&Faulty(Fault::Buddies(fault)), ENOUGH).failure;
        let WindowCase { call, window } = failure.expect("seen").smallest;
        assert!(window.area() <= 2 && call.x.len() <= 6, "{fault:?}: {call:?} {window:?}");
    }
}
