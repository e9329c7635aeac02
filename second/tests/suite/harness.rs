//! The generator, the floors, and the harness and shrinker on planted faults.

use crate::faulty::{Fault, Faulty};
use crate::sample;
use second::bridge::{Bridge, Empty};
use second::call::{Analysis, Call, Refusal};
use second::cases::{AnalysisCase, ReadingCase, SummaryCase, TextCase, WindowCase};
use second::compare::{run, Case, Failure, Own, Subject};
use second::field_case::FieldCase;
use second::screen_case::ScreenCase;
use second::shrink::smallest;
use second::survey::{survey, Counts};
use second::tally::{Floor, Tally};
use second::text::parse;
use second::write::{printf_form, rerun_form};
use std::thread::scope;

const SEED: u64 = 7;

fn failure<C: Case>(fault: Fault) -> Failure<C> {
    let outcome = run::<C>(&Faulty(fault), SEED, 3000);
    outcome.failure.unwrap_or_else(|| panic!("{fault:?} was not seen"))
}

fn same_cases<C: Case>() {
    for index in 0..300 {
        let again = C::generate(SEED, index).plain();
        assert_eq!(C::generate(SEED, index).plain(), again);
    }
    let differ = (0..300).filter(|i| C::generate(1, *i).plain() != C::generate(2, *i).plain());
    assert!(differ.count() > 250, "another seed gives other cases");
}

#[test]
fn the_same_seed_gives_the_same_cases() {
    same_cases::<AnalysisCase>();
    same_cases::<WindowCase>();
    same_cases::<ScreenCase>();
    same_cases::<ReadingCase>();
    same_cases::<SummaryCase>();
    same_cases::<TextCase>();
    same_cases::<FieldCase>();
}

fn holds_its_floors(seed: u64, count: u64) {
    let mut out = Vec::new();
    assert_eq!(survey(&Own, seed, Counts { requests: count, fields: count }, &mut out), Ok(()));
    let out = String::from_utf8(out).expect("plain");
    let opening = format!("seed {seed}, count {count}\nanalysis, {count} cases\n");
    assert!(out.starts_with(&opening), "{out}");
    assert!(out.contains(&format!("\nsmoothing, {count} cases\n")), "{out}");
}

#[test]
fn a_small_survey_holds_its_floors() {
    // At this count all of the seeds 0..30 were seen to pass, so these three are not
    // picked by luck. One thread for each seed, for the time it takes.
    scope(|threads| {
        for seed in 0..3 {
            threads.spawn(move || holds_its_floors(seed, 8_000));
        }
    });
}

#[test]
fn a_survey_that_differs_says_how_to_run_it_again() {
    let counts = Counts { requests: 600, fields: 600 };
    let said = survey(&Faulty(Fault::SupportOffByOneBit), SEED, counts, &mut Vec::new());
    let said = said.expect_err("it differs");
    assert!(said.contains("of seed 7: support[0] is 2, not 1\n"), "{said}");
    assert!(said.contains("\nsmallest failing request:\ngrid=2,2\n"), "{said}");
}

#[test]
fn floors_scale_down_and_shares_grow() {
    let mut tally = Tally { count: 100, ..Tally::default() };
    let refusal = [Floor::times("refusal", 3, 200)];
    let missed = "floor missed: refusal 3 was seen 0 times, at least 1 asked";
    assert_eq!(tally.missed(&refusal).as_deref(), Some(missed));
    tally.count = 99;
    assert_eq!(tally.missed(&refusal), None, "rounded down");
    tally.count = 40_000;
    (0..200).for_each(|_| tally.add("refusal", 3));
    assert_eq!(tally.missed(&refusal), None, "a number of times does not grow");
    (0..19_999).for_each(|_| tally.add("accepted", 0));
    assert!(tally.missed(&[Floor::accepted_share(10_000)]).is_some());
    tally.add("accepted", 0);
    assert_eq!(tally.missed(&[Floor::accepted_share(10_000)]), None);
}

#[test]
fn a_call_that_is_not_offered_is_a_difference() {
    struct Nothing;
    impl Subject for Nothing {}
    assert!(run::<TextCase>(&Nothing, SEED, 1).failure.is_some());
    assert!(run::<AnalysisCase>(&Nothing, SEED, 1).failure.is_some());
    assert!(run::<ScreenCase>(&Nothing, SEED, 1).failure.is_some());
    assert!(run::<ReadingCase>(&Nothing, SEED, 1).failure.is_some());
    assert!(run::<FieldCase>(&Nothing, SEED, 1).failure.is_some());
}

#[test]
fn faults_of_the_scheme_are_seen_and_made_small() {
    use Fault::*;
    for fault in [
        HalvesTowardZero,
        Missing32767,
        TakenBack,
        FedBySameScan,
        SupportOffByOneBit,
        VerdictOffByOne,
        SmoothsBorder,
    ] {
        let failure = failure::<AnalysisCase>(fault);
        let call = &failure.smallest.0;
        println!("{fault:?}: {}\n{}", failure.difference, rerun_form(call));
        assert!(call.x.len() <= 3, "{fault:?}: {} stations", call.x.len());
        assert!(call.first_guess.len() <= 9, "{fault:?}: {} points", call.first_guess.len());
        assert!(call.scans <= 2, "{fault:?}: {} scans", call.scans);
        let text = failure.smallest.rerun_form();
        assert_eq!(parse(text.as_bytes()).as_ref(), Ok(call), "the text runs it again");
    }
}

/// Shrinks refused cases under the demand that the refusal stays.
fn shrink_refused<C: Case<Expected = Result<T, Refusal>>, T>(indices: u64) -> Vec<(u32, C)> {
    let refused = |case: &C| case.expected().err();
    let cases = (0..indices).map(|index| C::generate(SEED, index));
    let cases = cases.filter_map(|case| Some((refused(&case)?.number, case)));
    let still = |number: u32| move |case: &C| refused(case).is_some_and(|r| r.number == number);
    cases.map(|(number, case)| (number, smallest(case, &still(number)))).collect()
}

#[test]
fn refused_cases_of_every_number_are_made_small() {
    for (number, case) in shrink_refused::<AnalysisCase, Analysis>(300) {
        let call = case.0;
        let rows = if number == 4 { 513 } else { 1 };
        let points = if number == 1 { 130 } else { 4 };
        assert!(call.x.len() <= rows && call.first_guess.len() <= points, "{number}: {call:?}");
        let others = call.y.len().max(call.value.len()).max(call.observed.len());
        assert!(others.max(call.from.len()).max(call.until.len()) <= rows, "{number}: {call:?}");
    }
    for (number, case) in shrink_refused::<WindowCase, Analysis>(300) {
        let rows = if number == 4 { 513 } else { 1 };
        assert!(case.call.x.len() <= rows, "{number}: {case:?}");
    }
    for (number, case) in shrink_refused::<ScreenCase, Analysis>(300) {
        let rows = if number == 4 { 513 } else { 1 };
        assert!(case.call.x.len() <= rows, "{number}: {case:?}");
        let longest = case.screen.columns().map(Vec::len).into_iter().max();
        let most = match number {
            2 => 17,
            3 => 1,
            _ => 0,
        };
        assert!(longest <= Some(most), "{number}: {case:?}");
    }
    for (number, case) in shrink_refused::<TextCase, (Call, Analysis)>(100) {
        let most = if number == 10 { 65_700 } else { 110 };
        assert!(case.text.len() <= most, "{number}: {}", printf_form(&case.text));
    }
}

#[test]
fn a_write_before_a_refusal_is_seen() {
    let failure = failure::<AnalysisCase>(Fault::WritesBeforeRefusal);
    assert_eq!(failure.difference, "grid[0] is written though refused");
    assert!(failure.smallest.0.x.is_empty(), "no station is needed");
}

#[test]
fn a_death_is_made_small_over_many_starts() {
    let bridge = Bridge::start("sh tests/suite/dying_bridge.sh", Empty::default());
    let outcome = run::<AnalysisCase>(&bridge.expect("it starts"), SEED, 1);
    let failure = outcome.failure.expect("it dies in every call");
    assert!(failure.difference.starts_with("the archive died in this call: exit status: 7"));
    let call = failure.smallest.0;
    assert!(call.x.is_empty() && call.radius.is_empty(), "nothing is needed: {call:?}");
}

#[test]
fn a_window_widened_too_little_is_seen() {
    let failure = failure::<WindowCase>(Fault::WidenedByLargestOnly);
    let WindowCase { call, window } = &failure.smallest;
    assert!(window.area() == 1 && call.x.len() <= 3 && call.scans <= 3, "{call:?} {window:?}");
    assert!(failure.smallest.rerun_form().starts_with("left,right,top,bottom="));
}

#[test]
fn faults_of_readings_and_summaries_are_seen() {
    let idle = failure::<ReadingCase>(Fault::IdleCornersCount).smallest.0;
    assert_eq!((idle.nx, idle.ny), (2, 2));
    let zero = failure::<ReadingCase>(Fault::NegativeZero).smallest.0;
    assert_eq!(zero.field.iter().filter(|value| **value != 0).count(), 0);
    use Fault::*;
    for fault in [AnyCornerBacks, LastEdgeIsOff, OneUnitOffIsOn, PostsAreRead, ReadingRounded] {
        let query = failure::<ReadingCase>(fault).smallest.0;
        assert_eq!((query.nx, query.ny), (2, 2), "{fault:?}: {query:?}");
    }
    failure::<ReadingCase>(SupportUnmeasured);
    failure::<SummaryCase>(RefusedSummaryFilled);
    failure::<SummaryCase>(LastPointLeftOut);
    let wide = failure::<SummaryCase>(SpanWraps).smallest.0;
    assert_eq!((wide.nx, wide.ny), (2, 2));
}

#[test]
fn a_fault_of_the_text_is_seen_and_made_small() {
    let text = failure::<TextCase>(Fault::CarriageReturns).smallest.text;
    assert!(text.contains(&b'\r') && text.len() < 100, "{}", printf_form(&text));
}

#[test]
fn a_text_can_be_handed_to_the_shell() {
    assert_eq!(printf_form(b"a=%'\\\n\xFF"), "printf -- 'a=%%\\047\\134\\n\\377' | second text\n");
    let mut call = sample();
    call.scans = 0;
    assert!(rerun_form(&call).contains("\nscans=0\nradius=96\nlimit=200\n"), "listed, not text");
    let mut call = sample();
    call.radius.push(97);
    assert!(rerun_form(&call).contains("\nradius=96,97\n"), "a text would lose the 97");
}
