//! Subjects with one planted fault each in the smoothing of a single field.

use second::call::Field;
use second::compare::{Answer, Subject};
use second::refusals::check_shape;
use second::scan::smoothed;
use second::slips::{smoothed_with, Slip};
use second::smoothing::smooth;
use second::units::{FIELD, SIDE};

#[derive(Clone, Copy, Debug, PartialEq, Eq)]
pub enum FieldFault {
    Smooths(Slip),
    RefusesNothing,
    RefusesEverything,
    SmoothsRefused,
    /// Up to the first value that is out of range.
    SmoothsUpToTheBad,
    SaysRefused,
    SaysAccepted,
    OneColumnWillDo,
    SixtyFiveWillDo,
    LongerWillDo,
    ProductInU32,
    OneMoreWillDo,
    ExtremesRefused,
    LastUntested,
    FirstUntested,
    BorderUntested,
    OnlyTooLarge,
    SizeOfTheLeast,
}

use FieldFault::*;

pub const OF_REFUSALS: [FieldFault; 17] = [
    RefusesNothing,
    RefusesEverything,
    SmoothsRefused,
    SmoothsUpToTheBad,
    SaysRefused,
    SaysAccepted,
    OneColumnWillDo,
    SixtyFiveWillDo,
    LongerWillDo,
    ProductInU32,
    OneMoreWillDo,
    ExtremesRefused,
    LastUntested,
    FirstUntested,
    BorderUntested,
    OnlyTooLarge,
    SizeOfTheLeast,
];

pub struct FaultyField(pub FieldFault);

impl Subject for FaultyField {
    fn smooth(&self, nx: u32, ny: u32, values: &mut [i32]) -> Answer<bool> {
        let field = Field { nx, ny, values: values.to_vec() };
        let accepted = accepts(&field, self.0);
        let smoothed = match self.0 {
            Smooths(slip) if accepted => smoothed_with(slip, field.shape(), values),
            RefusesEverything => return Ok(false),
            SaysAccepted => return Ok(true),
            SmoothsRefused => smoothed_as_far_as_it_goes(&field),
            SmoothsUpToTheBad => up_to_the_bad(&field),
            _ if accepted => smoothed_as_far_as_it_goes(&field),
            _ => return Ok(false),
        };
        values.copy_from_slice(&smoothed);
        Ok(accepted && self.0 != SaysRefused)
    }
}

/// Whatever the length, the rows that are there; nothing where there are no rows
/// of some points.
fn smoothed_as_far_as_it_goes(field: &Field) -> Vec<i32> {
    let mut shape = field.shape();
    if shape.nx == 0 || shape.nx > field.values.len() {
        return field.values.clone();
    }
    shape.ny = shape.ny.clamp(1, field.values.len() / shape.nx);
    smoothed(shape, &field.values)
}

fn up_to_the_bad(field: &Field) -> Vec<i32> {
    let all = smoothed_as_far_as_it_goes(field);
    let bad = field.values.iter().position(|value| !FIELD.contains(value));
    let good = bad.unwrap_or(all.len());
    [&all[..good], &field.values[good..]].concat()
}

fn accepts(field: &Field, fault: FieldFault) -> bool {
    let Field { nx, ny, values } = field;
    let length = values.len();
    let points = u64::from(*nx) * u64::from(*ny);
    let sides = |low: u32, high: u32| (low..=high).contains(nx) && (low..=high).contains(ny);
    let (least, most) = (*SIDE.start(), *SIDE.end());
    let fits = match fault {
        RefusesNothing => true,
        OneColumnWillDo => sides(1, most) && points == length as u64,
        SixtyFiveWillDo => sides(least, most + 1) && points == length as u64,
        LongerWillDo => sides(least, most) && points <= length as u64,
        ProductInU32 => *nx >= least && *ny >= least && nx.wrapping_mul(*ny) as usize == length,
        _ => check_shape(*nx, *ny, length).is_ok(),
    };
    let kept = |point: usize| {
        let (i, j) = (point % *nx as usize, point / *nx as usize);
        i == 0 || i + 1 == *nx as usize || j == 0 || j + 1 == *ny as usize
    };
    let good = |point: usize, value: i32| match fault {
        RefusesNothing => true,
        OneMoreWillDo => (FIELD.start() - 1..=FIELD.end() + 1).contains(&value),
        ExtremesRefused => (FIELD.start() + 1..=FIELD.end() - 1).contains(&value),
        LastUntested if point + 1 == length => true,
        FirstUntested if point == 0 => true,
        BorderUntested if kept(point) => true,
        OnlyTooLarge => value <= *FIELD.end(),
        // The size of the least i32 wraps to itself.
        SizeOfTheLeast => value.wrapping_abs() <= *FIELD.end(),
        _ => FIELD.contains(&value),
    };
    fits && values.iter().enumerate().all(|(point, value)| good(point, *value))
}

/// Sees that a subject without a fault would pass: the one that smooths as far
/// as it goes.
#[test]
fn what_the_faults_are_put_into_is_right() {
    for index in 0..500 {
        let field = second::generate_field::field(7, index);
        let accepted = accepts(&field, SaysRefused);
        assert_eq!(accepted, smooth(&field).is_some(), "{field:?}");
        if accepted {
            assert_eq!(Some(smoothed_as_far_as_it_goes(&field)), smooth(&field));
        }
    }
}
