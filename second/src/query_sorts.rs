//! The sorts of reading and summary that a run must not lose, by name and
//! number. A name lists in brackets what its numbers, from 0, stand for.

use crate::call::Query;
use crate::field::Shape;
use crate::reading::Reading;
use crate::sorts::{floors_of, named, Sort};
use crate::tally::Floor;
use crate::units::{BORDER, SIDE};

const PLACE: &str = "place (in a cell, on a column, on a row, on a point)";
const EDGE: &str = "place on an edge (left, right, top, bottom)";
const CORNER: &str = "place on a corner (left top, right top, left bottom, right bottom)";
const BY_ONE: &str = "place off the grid by one unit (left, right, top, bottom)";
const POST: &str = "place off the grid where a post may be (left, right, top, bottom, a corner)";
const EXTREME: &str = "place at i32's (least x, greatest x, least y, greatest y)";
const CORNERS: &str = "corners that count hold i32's (least, greatest, both, one at all four)";
const IDLE: &str = "bare corner without a share, though backed (one, more)";
const BARE: &str = "first guess by (one corner of four, one of two, the only one, more)";
const VALUE: &str = "value (negative, zero out of zeros, zero out of others, positive)";
const REFUSED: &str = "refused by (nx, ny, longer field, shorter field, longer support, shorter)";
const REFUSED_BY_ONE: &str = "refused by one (longer field, shorter, longer support, shorter)";
pub const NO_POINTS: &str = "refused without points";

const LOWEST: &str = "lowest at (the first point, the last, another)";
const HIGHEST: &str = "highest at (the first point, the last, another)";
const ENDS: &str = "field with i32's (least, greatest, both)";
const SIGNS: &str = "field (all negative, all positive, of both signs, flat, all zero)";
const SIZE: &str = "grid of (2 by 2, 64 by 64, 64 columns, 64 rows)";

/// The least of each sort of reading in a full run.
pub fn reading_floors() -> Vec<Floor> {
    floors_of(&[
        (PLACE, 4, 500),
        (EDGE, 4, 500),
        (CORNER, 4, 500),
        (BY_ONE, 4, 500),
        (POST, 5, 300),
        (EXTREME, 4, 200),
        (CORNERS, 4, 200),
        (IDLE, 2, 200),
        (BARE, 4, 200),
        (VALUE, 4, 200),
        (REFUSED, 6, 80),
        (REFUSED_BY_ONE, 4, 40),
        (NO_POINTS, 1, 50),
    ])
}

/// The least of each sort of summary in a full run.
pub fn summary_floors() -> Vec<Floor> {
    let mut floors = floors_of(&[
        (LOWEST, 3, 500),
        (HIGHEST, 3, 500),
        (ENDS, 3, 500),
        (SIGNS, 5, 200),
        (SIZE, 4, 200),
        (REFUSED, 4, 80),
        (REFUSED_BY_ONE, 2, 40),
        (NO_POINTS, 1, 50),
    ]);
    floors.extend([0, 1].map(|number| Floor::times("refusal", number, 200)));
    floors
}

pub fn of_reading(query: &Query, reading: &Reading) -> Vec<Sort> {
    match reading {
        Reading::Refused => of_refused(query, true),
        Reading::OffGrid => of_off_grid(query),
        Reading::FirstGuess(value) | Reading::Backed(value) => {
            [of_place(query), of_corners(query, *reading), of_value(query, *value)].concat()
        }
    }
}

fn shape(query: &Query) -> Shape {
    Shape { nx: query.nx as usize, ny: query.ny as usize }
}

/// The first thing that is wrong, and whether it is by one entry.
fn of_refused(query: &Query, with_support: bool) -> Vec<Sort> {
    if !SIDE.contains(&query.nx) {
        let none = query.field.is_empty();
        return [vec![(REFUSED, 0)], named(NO_POINTS, [none])].concat();
    }
    if !SIDE.contains(&query.ny) {
        return vec![(REFUSED, 1)];
    }
    let points = shape(query).points();
    let (field, support) = (query.field.len(), query.support.len());
    let support = if field == points && with_support { support } else { points };
    let faults = [field > points, field < points, support > points, support < points];
    let by_one = field.abs_diff(points) + support.abs_diff(points) == 1;
    let refused = faults.iter().enumerate().filter(|(_, fault)| **fault);
    let refused = refused.map(|(at, _)| (REFUSED, 2 + at as u32)).collect();
    let empty = named(NO_POINTS, [field == 0]);
    [refused, named(REFUSED_BY_ONE, faults.map(|fault| fault && by_one)), empty].concat()
}

fn of_off_grid(query: &Query) -> Vec<Sort> {
    let (x, y) = (i64::from(query.x), i64::from(query.y));
    let (last_x, last_y) = shape(query).far_corner();
    let (on_x, on_y) = ((0..=last_x).contains(&x), (0..=last_y).contains(&y));
    let by_one =
        [on_y && x == -1, on_y && x == last_x + 1, on_x && y == -1, on_x && y == last_y + 1];
    let posts = shape(query).holds_within(query.x, query.y, BORDER);
    let sides = [on_y && x < 0, on_y && x > last_x, on_x && y < 0, on_x && y > last_y];
    let [left, right, top, bottom] = sides.map(|beyond| posts && beyond);
    let posts = [left, right, top, bottom, posts && !on_x && !on_y];
    let ends = [query.x == i32::MIN, query.x == i32::MAX, query.y == i32::MIN, query.y == i32::MAX];
    [named(BY_ONE, by_one), named(POST, posts), named(EXTREME, ends)].concat()
}

fn of_place(query: &Query) -> Vec<Sort> {
    let (on_column, on_row) = (query.x % 64 == 0, query.y % 64 == 0);
    let (last_x, last_y) = shape(query).far_corner();
    let (left, right) = (query.x == 0, i64::from(query.x) == last_x);
    let (top, bottom) = (query.y == 0, i64::from(query.y) == last_y);
    let corners = [left && top, right && top, left && bottom, right && bottom];
    let alone = !corners.iter().any(|corner| *corner);
    let lines = [!on_column && !on_row, on_column && !on_row, !on_column && on_row];
    let [cell, column, row] = lines;
    [
        named(PLACE, [cell, column, row, on_column && on_row]),
        named(EDGE, [left, right, top, bottom].map(|lies| lies && alone)),
        named(CORNER, corners),
    ]
    .concat()
}

/// What the corners hold that have a share, and which of them are bare.
fn of_corners(query: &Query, reading: Reading) -> Vec<Sort> {
    let corners = shape(query).corners(query.x, query.y);
    let counting: Vec<usize> = corners.iter().filter(|c| c.1 != 0).map(|c| c.0).collect();
    let idle_bare = corners.iter().filter(|c| c.1 == 0 && query.support[c.0] == 0).count();
    let holds = |value: i32| counting.iter().any(|point| query.field[*point] == value);
    let (least, greatest) = (holds(i32::MIN), holds(i32::MAX));
    let first = query.field[counting[0]];
    let same = counting.iter().all(|point| query.field[*point] == first);
    let all_four = counting.len() == 4 && same && (least || greatest);
    let bare = counting.iter().filter(|point| query.support[**point] == 0).count();
    let backed = matches!(reading, Reading::Backed(_));
    let alone = |of: usize| bare == 1 && counting.len() == of;
    [
        named(CORNERS, [least, greatest, least && greatest, all_four]),
        named(IDLE, [backed && idle_bare == 1, backed && idle_bare > 1]),
        named(BARE, [alone(4), alone(2), alone(1), bare > 1]),
    ]
    .concat()
}

fn of_value(query: &Query, value: f64) -> Vec<Sort> {
    let corners = shape(query).corners(query.x, query.y);
    let zeros = corners.iter().all(|c| c.1 == 0 || query.field[c.0] == 0);
    let zero = value == 0.0;
    named(VALUE, [value < 0.0, zero && zeros, zero && !zeros, value > 0.0])
}

pub fn of_summary(query: &Query, refused: bool) -> Vec<Sort> {
    if refused {
        return of_refused(query, false);
    }
    let field = &query.field;
    let low = field.iter().copied().min().unwrap_or(0);
    let high = field.iter().copied().max().unwrap_or(0);
    let (least, greatest) = (low == i32::MIN, high == i32::MAX);
    let flat = low == high;
    let signs = [high < 0, low > 0, low < 0 && high > 0, flat, flat && low == 0];
    let sides = (query.nx, query.ny);
    let sizes = [sides == (2, 2), sides == (64, 64), sides.0 == 64, sides.1 == 64];
    [
        named(LOWEST, found_at(field, low)),
        named(HIGHEST, found_at(field, high)),
        named(ENDS, [least, greatest, least && greatest]),
        named(SIGNS, signs),
        named(SIZE, sizes),
    ]
    .concat()
}

/// Where alone a value stands: at the first point, at the last, or at others
/// only.
fn found_at(field: &[i32], value: i32) -> [bool; 3] {
    let last = field.len() - 1;
    let places: Vec<usize> = (0..field.len()).filter(|at| field[*at] == value).collect();
    let others = !places.contains(&0) && !places.contains(&last);
    [places == [0], places == [last], others]
}
