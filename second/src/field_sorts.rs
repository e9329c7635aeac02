//! The sorts of single fields that a run of smoothings must not lose, by name
//! and number. A name lists in brackets what its numbers, from 0, stand for. A
//! field is counted once for each sort, however many of its points are of it.

use crate::call::Field;
use crate::field::Shape;
use crate::generate_field::{BAD_SIDES, BAD_VALUES};
use crate::refusals::check_shape;
use crate::scan::{smoothed, smoothing_sum, PATTERN_SUM};
use crate::slips::{self, smoothed_with};
use crate::sorts::{floors_in_order, floors_of, named, Sort};
use crate::tally::Floor;
use crate::units::{FIELD, SIDE};

const SIDES: &str = "accepted field of (2 columns, 2 rows, 3 columns, 3 rows, 2 by 2, 3 by 3, \
    64 columns, 64 rows, 64 by 64)";
const UNEQUAL: &str = "accepted field with inner points and other sides that fit, its own \
    exchanged (more columns, more rows)";
const EXTREMES: &str = "accepted field with inner points (all at 13,000,000, all at -13,000,000, \
    checkered with the two, with one of them at an inner point alone, on the border alone)";
const LONE: &str = "lone inner value among zeros (16, 2, -2)";
const SUMS: &str = "sum of an inner point (an exact half above zero, below zero, one short of \
    a half above zero, below zero, one past a half above zero, below zero, 208,000,000, \
    -208,000,000)";
const NO_SUM: &str = "sum of an inner point that is 0 (at a value of 0, at another)";
const SHOWN: &str = "field that would show (the new row above, the new value to the left, \
    a row above that is too old, one that never moved on, a smoothed first row, last row, \
    first column, last column, columns of other rows, sides exchanged, rows one short, \
    rows one long, halves toward zero, up, down, cut quotients, floors, sums in 28 bits, \
    sums as floats)";

const BAD_NX: &str = "refused nx (0, 1, 65, u32's greatest)";
const BAD_NY: &str = "refused ny (0, 1, 65, u32's greatest)";
const FITTING: &str = "refused sides that the length fits (of 0, of 1, of 65)";
pub const WRAPPED: &str = "refused sides whose product wraps to the length";
const BAD_LENGTH: &str = "refused length (one short, one long, empty, a row short, a row long)";
const BAD_VALUE: &str = "refused value (13,000,001, -13,000,001, i32's greatest, i32's least)";
const BAD_ALONE: &str =
    "one refused value alone (at the first point, at the last, at an inner point)";
const KEPT: &str = "refused field that smoothing would change (by sides, by length, by a value)";

/// The least of each sort in a full run. Most runs of fields are a quarter of
/// that, and have a quarter of these.
pub fn floors() -> Vec<Floor> {
    let sorts = floors_of(&[
        (SIDES, 9, 600),
        (UNEQUAL, 2, 1_600),
        (LONE, 3, 60),
        (NO_SUM, 2, 800),
        (SHOWN, slips::ALL.len() as u32, 1_200),
        (BAD_NX, 4, 120),
        (BAD_NY, 4, 120),
        (FITTING, 3, 120),
        (WRAPPED, 1, 120),
        (BAD_LENGTH, 5, 120),
        (BAD_VALUE, 4, 240),
        (BAD_ALONE, 3, 50),
        (KEPT, 3, 50),
    ]);
    let sums = [&[1_600; 6][..], &[400; 2]].concat();
    let extremes = floors_in_order(EXTREMES, &[400, 400, 300, 300, 60]);
    [vec![Floor::accepted_share(15_000)], sorts, extremes, floors_in_order(SUMS, &sums)].concat()
}

/// The sorts of an accepted field, with what it is smoothed to.
pub fn of_accepted(field: &Field, smooth: &[i32]) -> Vec<Sort> {
    let (shape, values) = (field.shape(), &field.values[..]);
    let shows = |slip| smoothed_with(slip, shape, values) != smooth;
    let by_sides = named(SIDES, sides(field));
    if shape.nx < 3 || shape.ny < 3 {
        // Some slips touch the border, and would show here too.
        return [by_sides, named(SHOWN, slips::ALL.map(shows))].concat();
    }
    [
        by_sides,
        named(UNEQUAL, [shape.nx > shape.ny, shape.nx < shape.ny]),
        named(EXTREMES, extremes(shape, values)),
        named(LONE, [16, 2, -2].map(|value| is_lone(shape, values, value))),
        sums(shape, values),
        named(SHOWN, slips::ALL.map(shows)),
    ]
    .concat()
}

fn sides(field: &Field) -> [bool; 9] {
    let (nx, ny) = (field.nx, field.ny);
    let both = |side: u32| (nx, ny) == (side, side);
    [nx == 2, ny == 2, nx == 3, ny == 3, both(2), both(3), nx == 64, ny == 64, both(64)]
}

fn is_inner(shape: Shape, point: usize) -> bool {
    let (i, j) = (point % shape.nx, point / shape.nx);
    i > 0 && i + 1 < shape.nx && j > 0 && j + 1 < shape.ny
}

fn extremes(shape: Shape, values: &[i32]) -> [bool; 5] {
    let (least, most) = (*FIELD.start(), *FIELD.end());
    let all = |value: i32| values.iter().all(|other| *other == value);
    let extreme = |point: &usize| [least, most].contains(&values[*point]);
    let across =
        |point: usize| point.is_multiple_of(shape.nx) || values[point] != values[point - 1];
    let down = |point: usize| point < shape.nx || values[point] != values[point - shape.nx];
    let checks = |point: usize| extreme(&point) && across(point) && down(point);
    let at: Vec<usize> = (0..values.len()).filter(extreme).take(2).collect();
    let alone = |inner: bool| matches!(at[..], [point] if is_inner(shape, point) == inner);
    let checkered = (0..values.len()).all(checks);
    [all(most), all(least), checkered, alone(true), alone(false)]
}

/// Document 01's case (d).
fn is_lone(shape: Shape, values: &[i32], value: i32) -> bool {
    let others: Vec<usize> = (0..values.len()).filter(|point| values[*point] != 0).collect();
    matches!(others[..], [point] if values[point] == value && is_inner(shape, point))
}

fn sums(shape: Shape, values: &[i32]) -> Vec<Sort> {
    let (half, greatest) = (PATTERN_SUM / 2, PATTERN_SUM * i64::from(*FIELD.end()));
    let (mut found, mut none) = ([[false; 2]; 4], [false; 2]);
    for (i, j) in (1..shape.ny - 1).flat_map(|j| (1..shape.nx - 1).map(move |i| (i, j))) {
        let sum = smoothing_sum(shape, values, i, j);
        let (rest, below) = (sum.abs() % PATTERN_SUM, usize::from(sum < 0));
        found[0][below] |= rest == half;
        found[1][below] |= rest == half - 1;
        found[2][below] |= rest == half + 1;
        found[3][below] |= sum.abs() == greatest;
        none[usize::from(values[shape.index(i, j)] != 0)] |= sum == 0;
    }
    [named(SUMS, found.into_iter().flatten()), named(NO_SUM, none)].concat()
}

/// The sorts of a refused field, by the first thing that is wrong.
pub fn of_refused(field: &Field) -> Vec<Sort> {
    let good_sides = SIDE.contains(&field.nx) && SIDE.contains(&field.ny);
    match check_shape(field.nx, field.ny, field.values.len()) {
        Ok(shape) => of_bad_values(shape, &field.values),
        Err(_) if good_sides => of_bad_length(field),
        Err(_) => of_bad_sides(field),
    }
}

fn of_bad_sides(field: &Field) -> Vec<Sort> {
    let Field { nx, ny, values } = field;
    let points = u64::from(*nx) * u64::from(*ny);
    let fits = points == values.len() as u64;
    let [none, one, _, _] = BAD_SIDES.map(|side| fits && [*nx, *ny].contains(&side));
    let past = fits && (*nx.max(ny) > *SIDE.end());
    let wraps = !fits && nx.wrapping_mul(*ny) as usize == values.len();
    let changed = fits && *nx > 2 && *ny > 2 && smoothed(field.shape(), values) != *values;
    [
        named(BAD_NX, BAD_SIDES.map(|side| *nx == side)),
        named(BAD_NY, BAD_SIDES.map(|side| *ny == side)),
        named(FITTING, [none, one, past]),
        named(WRAPPED, [wraps]),
        named(KEPT, [changed]),
    ]
    .concat()
}

fn of_bad_length(field: &Field) -> Vec<Sort> {
    let (shape, values) = (field.shape(), &field.values[..]);
    let (given, asked) = (values.len(), shape.points());
    let lengths = [asked - 1, asked + 1, 0, asked - shape.nx, asked + shape.nx];
    let changed = values.get(..asked).is_some_and(|part| smoothed(shape, part) != part);
    [named(BAD_LENGTH, lengths.map(|length| given == length)), named(KEPT, [false, changed])]
        .concat()
}

fn of_bad_values(shape: Shape, values: &[i32]) -> Vec<Sort> {
    let bad: Vec<usize> = (0..values.len()).filter(|at| !FIELD.contains(&values[*at])).collect();
    let alone = |is: &dyn Fn(usize) -> bool| matches!(bad[..], [point] if is(point));
    let last = values.len() - 1;
    let places: [&dyn Fn(usize) -> bool; 3] =
        [&|point| point == 0, &|point| point == last, &|point| is_inner(shape, point)];
    let held = |value: i32| bad.iter().any(|point| values[*point] == value);
    [
        named(BAD_VALUE, BAD_VALUES.map(held)),
        named(BAD_ALONE, places.map(alone)),
        named(KEPT, [false, false, smoothed(shape, values) != values]),
    ]
    .concat()
}
