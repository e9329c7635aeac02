//! Single fields: the smoothing worked by hand, and faults of a smoothing that
//! the harness must see early and make small.

use crate::faulty::{Fault, Faulty};
use crate::faulty_fields::{FaultyField, FieldFault, OF_REFUSALS};
use crate::posts::{run_cases, seen_within};
use second::call::Field;
use second::cases::{AnalysisCase, TextCase, WindowCase};
use second::compare::Case;
use second::field::Shape;
use second::field_case::FieldCase;
use second::screen_case::ScreenCase;
use second::slips::{smoothed_with, Slip, ALL};
use second::smoothing::smooth;

/// So many generated fields, of any seed, show each fault.
const ENOUGH: u64 = 500;

fn smoothed_lone(value: i32) -> Option<i32> {
    let values = vec![0, 0, 0, 0, value, 0, 0, 0, 0];
    let smooth = smooth(&Field { nx: 3, ny: 3, values })?;
    assert!((0..9).all(|point| point == 4 || smooth[point] == 0));
    Some(smooth[4])
}

#[test]
fn a_lone_value_is_smoothed_as_in_the_paper() {
    let given = [16, 2, -2, 1, -1, 6, -6, 13_000_000, -13_000_000, 13_000_001].map(smoothed_lone);
    let asked = [4, 1, -1, 0, 0, 2, -2, 3_250_000, -3_250_000];
    assert_eq!(given[..9], asked.map(Some));
    assert_eq!(given[9], None);
}

#[test]
fn sides_lengths_and_values_are_tested() {
    let accepted = |nx, ny, length| smooth(&Field { nx, ny, values: vec![5; length] }).is_some();
    assert!(accepted(2, 2, 4) && accepted(64, 64, 4096) && accepted(2, 64, 128));
    assert!(!accepted(1, 4, 4) && !accepted(4, 1, 4) && !accepted(65, 2, 130));
    assert!(!accepted(0, 0, 0) && !accepted(2, 2, 3) && !accepted(2, 2, 5) && !accepted(2, 2, 0));
    assert!(!accepted(1 << 31, 2, 0) && !accepted(u32::MAX, u32::MAX, 1));
    let with = |value| smooth(&Field { nx: 2, ny: 2, values: vec![0, 0, 0, value] });
    assert!([13_000_000, -13_000_000].into_iter().all(|value| with(value).is_some()));
    let bad = [13_000_001, -13_000_001, i32::MIN, i32::MAX];
    assert!(bad.into_iter().all(|value| with(value).is_none()));
}

/// A field of 3 columns and 4 rows, smoothed with a slip. Rightly, its two inner
/// points are 4 and 2.
fn slipped(slip: Slip) -> Vec<i32> {
    let field = [0, 0, 0, 0, 16, 0, 0, 0, 0, 0, 0, 0];
    smoothed_with(slip, Shape { nx: 3, ny: 4 }, &field)
}

#[test]
fn slips_are_what_they_say() {
    use Slip::*;
    let inner = |slip| (slipped(slip)[4], slipped(slip)[7]);
    assert_eq!(inner(HalvesUp), (4, 2), "no slip here");
    // The row above the last inner one is 0 4 0, or the first row.
    assert_eq!(inner(NewRowAbove), (4, 1));
    assert_eq!((inner(RowTooOld), inner(RowNeverMoved)), ((4, 0), (4, 0)));
    assert_eq!((slipped(FirstRow)[1], slipped(LastRow)[10]), (2, 0));
    assert_eq!((slipped(FirstColumn)[3], slipped(LastColumn)[5]), (2, 2));
    let columns = slipped(ColumnsOfOtherRows);
    assert_eq!((columns[3], columns[5]), (2, 2));
    assert_eq!(smoothed_with(NewLeft, Shape { nx: 4, ny: 3 }, &spike(12, 5))[6], 1, "not 2");
    let quotient = |slip, value| smoothed_with(slip, Shape { nx: 3, ny: 3 }, &spike_of(value))[4];
    let all = [HalvesTowardZero, HalvesUp, HalvesDown, Cut, Floor];
    assert_eq!(all.map(|slip| quotient(slip, 2)), [0, 1, 0, 0, 0]);
    assert_eq!(all.map(|slip| quotient(slip, -2)), [0, 0, -1, 0, -1]);
    assert_eq!(all.map(|slip| quotient(slip, 3)), [1, 1, 1, 0, 0]);
    assert_eq!(all.map(|slip| quotient(slip, -3)), [-1, -1, -1, 0, -1]);
    assert_eq!(all.map(|slip| quotient(slip, -1)), [0, 0, 0, 0, -1]);
}

/// Zeros with a 16 at one point.
fn spike(points: usize, at: usize) -> Vec<i32> {
    (0..points).map(|point| if point == at { 16 } else { 0 }).collect()
}

fn spike_of(value: i32) -> Vec<i32> {
    spike(9, 4).into_iter().map(|other| other / 16 * value).collect()
}

#[test]
fn sums_need_29_bits() {
    let all = |slip, value| smoothed_with(slip, Shape { nx: 3, ny: 3 }, &[value; 9])[4];
    assert_eq!(all(Slip::SumIn28Bits, 8_388_607), 8_388_607);
    assert_eq!(all(Slip::SumIn28Bits, 8_388_608), -8_388_608);
    assert_eq!(all(Slip::SumIn28Bits, -13_000_000), 16_777_216 - 13_000_000);
}

/// The first field of a seed that shows a fault.
fn first_seen(seed: u64, fault: FieldFault) -> Option<u64> {
    let differs = |index: &u64| {
        let case = FieldCase::generate(seed, *index);
        case.differs(&FaultyField(fault)).is_some()
    };
    (0..ENOUGH).find(differs)
}

#[test]
fn faults_are_seen_early() {
    for fault in ALL.map(FieldFault::Smooths).into_iter().chain(OF_REFUSALS) {
        for seed in 0..5 {
            assert!(first_seen(seed, fault).is_some(), "{fault:?} of seed {seed}");
        }
    }
}

fn smallest(fault: FieldFault) -> (Field, String) {
    let outcome = run_cases::<FieldCase>(&FaultyField(fault), ENOUGH);
    let failure = outcome.failure.unwrap_or_else(|| panic!("{fault:?} was not seen"));
    (failure.smallest.0, failure.difference)
}

#[test]
fn slips_are_made_small() {
    for slip in ALL {
        let (field, _) = smallest(FieldFault::Smooths(slip));
        let others = field.values.iter().filter(|value| **value != 0).count();
        // These need large values at many points.
        let wide = [Slip::SumIn28Bits, Slip::SumAsFloat].contains(&slip);
        let most = if wide { 9 } else { 1 };
        assert!(field.values.len() <= 12 && others <= most, "{slip:?}: {field:?}");
    }
}

#[test]
fn faults_of_refusals_are_made_small() {
    for fault in OF_REFUSALS {
        let (field, _) = smallest(fault);
        // A side that is too long stays so.
        let most = if field.nx.max(field.ny) == 65 { 3 * 65 } else { 12 };
        assert!(field.values.len() <= most, "{fault:?}: {field:?}");
    }
    let (_, written) = smallest(FieldFault::SmoothsRefused);
    assert!(written.ends_with("is written though refused"), "{written}");
    let (_, refused) = smallest(FieldFault::RefusesEverything);
    assert_eq!(refused, "the field is refused, not accepted");
    let (_, accepted) = smallest(FieldFault::RefusesNothing);
    assert_eq!(accepted, "the field is accepted, not refused");
}

/// In whole requests the slips are seen too, wherever grids are smoothed.
#[test]
fn slips_are_seen_early_in_requests() {
    use Slip::*;
    let faults = [NewRowAbove, RowTooOld, LastRow, HalvesTowardZero].map(Fault::Smooths);
    seen_within::<AnalysisCase>(ENOUGH, &faults);
    seen_within::<TextCase>(ENOUGH, &faults);
    seen_within::<WindowCase>(ENOUGH, &faults);
    seen_within::<ScreenCase>(ENOUGH, &faults);
    for fault in faults {
        let failure = run_cases::<AnalysisCase>(&Faulty(fault), ENOUGH).failure.expect("seen");
        let call = failure.smallest.0;
        assert!(call.first_guess.len() <= 12 && call.x.len() <= 1, "{fault:?}: {call:?}");
    }
}
