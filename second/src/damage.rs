//! The generator's harm: numbers pushed to their bounds, and calls, windows
//! and queries broken on purpose. `damage_screen` breaks screens, `damage_text`
//! texts.

use crate::call::{Call, Query, Window, Winds};
use crate::damage_buddies::{break_by_buddy, push_check};
use crate::damage_rules::break_by_rule;
use crate::damage_winds::break_by_wind;
use crate::rng::Rng;
use crate::units::{BORDER, MISSING, MOST_STATIONS, NO_END};

const SIDES: [u32; 4] = [0, 1, 65, u32::MAX];
const BAD_VALUES: [i32; 4] = [1_000_001, -1_000_001, i32::MAX, i32::MIN + 1];
const EDGE_VALUES: [i32; 4] = [1_000_000, -1_000_000, MISSING, 32_767];

/// Breaks a call so that it earns a refusal, sometimes in a second way too. Winds,
/// modes, rules and checks have their turns, and second faults of their own.
pub fn break_call(rng: &mut Rng, call: &mut Call, number: u32, turn: u64) {
    let broken = break_by_rule(rng, call, number, turn)
        || break_by_wind(rng, call, number, turn)
        || break_by_buddy(rng, call, number, turn);
    if broken {
        return;
    }
    break_one(rng, call, number);
    if rng.one_in(4) {
        let other = rng.pick(&[1, 3, 4, 5, 6, 7, 8, number]);
        break_one(rng, call, other);
    }
}

pub fn break_one(rng: &mut Rng, call: &mut Call, number: u32) {
    match number {
        1 => break_shape(rng, call),
        3 => break_results(rng, call),
        4 => break_columns(rng, call),
        5 => break_scan_count(rng, call),
        6 => set_plan(rng, call, true),
        7 => set_guess(rng, call, true),
        _ => set_row(rng, call, true),
    }
}

fn break_shape(rng: &mut Rng, call: &mut Call) {
    match rng.below(6) {
        0 => call.nx = rng.pick(&SIDES),
        1 => call.ny = rng.pick(&SIDES),
        2 => {
            // No points, where a product of 32 bits is 0 too.
            (call.nx, call.ny) = rng.pick(&[(0, 0), (1 << 16, 1 << 16), (1 << 31, 2)]);
            call.first_guess.clear();
            (call.grid_len, call.support_len) = (0, 0);
        }
        _ => {
            change_length(rng, &mut call.first_guess, 0);
            if rng.one_in(2) {
                call.fit_results();
            }
        }
    }
}

fn break_results(rng: &mut Rng, call: &mut Call) {
    let length = match rng.below(3) {
        0 => &mut call.grid_len,
        1 => &mut call.support_len,
        _ => &mut call.verdict_len,
    };
    *length = wrong_length(rng, *length);
}

/// Another length: off by one about half the time, else by a lot or none.
pub fn wrong_length(rng: &mut Rng, right: usize) -> usize {
    let (less, half) = (right.saturating_sub(1), right / 2);
    let lengths = [right + 1, right + 1, less, less, 0, half, 2 * right + 2, right + 1000];
    let wrong: Vec<usize> = lengths.into_iter().filter(|length| *length != right).collect();
    rng.pick(&wrong)
}

/// One column empty or longer or shorter than the rest, or a row too many.
/// Verdicts are mostly kept as long as x, so that refusal 3 does not come
/// first.
fn break_columns(rng: &mut Rng, call: &mut Call) {
    let column = rng.below(7);
    match column {
        0 => change_length(rng, &mut call.x, 0),
        1 => change_length(rng, &mut call.y, 0),
        2 => change_length(rng, &mut call.value, 640),
        3 => change_length(rng, &mut call.observed, 0),
        4 => change_length(rng, &mut call.from, 0),
        5 => change_length(rng, &mut call.until, NO_END),
        _ => set_rows(call, MOST_STATIONS + 1),
    }
    if !rng.one_in(5) {
        call.verdict_len = call.x.len();
    }
}

pub fn change_length<T: Copy>(rng: &mut Rng, column: &mut Vec<T>, entry: T) {
    let length = wrong_length(rng, column.len());
    column.resize(length, entry);
}

/// Repeats or drops rows until there are so many. The first of all stands at
/// the origin and agrees with the first guess there.
pub fn set_rows(call: &mut Call, rows: usize) {
    let guess = call.first_guess.first().copied().unwrap_or(0);
    resize(&mut call.x, rows, 0);
    resize(&mut call.y, rows, 0);
    resize(&mut call.value, rows, guess);
    resize(&mut call.observed, rows, call.time);
    resize(&mut call.from, rows, 0);
    resize(&mut call.until, rows, NO_END);
    let winds = call.winds.iter_mut().flat_map(Winds::columns_mut);
    winds.for_each(|column| resize(column, rows, MISSING));
    call.verdict_len = rows;
}

fn resize<T: Copy>(column: &mut Vec<T>, rows: usize, first: T) {
    for row in column.len()..rows {
        column.push(if row == 0 { first } else { column[row / 2] });
    }
    column.truncate(rows);
}

fn break_scan_count(rng: &mut Rng, call: &mut Call) {
    let shorter = rng.below(call.scans.clamp(1, 6) as usize);
    match rng.below(5) {
        0 => call.scans = 0,
        1 => call.scans = u32::MAX,
        2 => {
            call.scans = 7;
            call.radius.resize(7, 1);
            call.limit.resize(7, 100);
        }
        3 => call.radius.truncate(shorter),
        _ => call.limit.truncate(shorter),
    }
}

/// One entry of the plan on a bound, or past it if bad. Neighbours follow a
/// good radius, so that none rises.
fn set_plan(rng: &mut Rng, call: &mut Call, bad: bool) {
    let scans = call.scans.clamp(1, 6) as usize;
    let scan = rng.below(scans).max(rng.below(scans));
    if scan >= call.radius.len().min(call.limit.len()) {
        return;
    }
    let before = scan.checked_sub(1).map_or(1024, |before| call.radius[before]);
    let rising = before.saturating_add(1);
    match (rng.below(5), bad) {
        (0 | 1, true) => call.limit[scan] = rng.pick(&[-1, 2_000_001, i32::MAX, i32::MIN]),
        (0 | 1, false) => call.limit[scan] = rng.pick(&[0, 2_000_000]),
        (_, true) => call.radius[scan] = rng.pick(&[0, -1, 1025, rising, rising, i32::MAX]),
        (2, false) => call.radius[scan..].fill(1),
        (3, false) => call.radius[..=scan].fill(1024),
        (_, false) => call.radius[scan] = before,
    }
}

fn set_guess(rng: &mut Rng, call: &mut Call, bad: bool) {
    let point = rng.below(call.first_guess.len().max(1));
    if let Some(value) = call.first_guess.get_mut(point) {
        *value = match bad {
            true => rng.pick(&[1_000_001, -1_000_001, i32::MAX, MISSING]),
            false => rng.pick(&[1_000_000, -1_000_000]),
        };
    }
}

/// One field of a row on a bound, or past it if bad.
fn set_row(rng: &mut Rng, call: &mut Call, bad: bool) {
    if call.x.is_empty() {
        set_rows(call, 1);
    }
    let columns = [call.y.len(), call.value.len(), call.from.len(), call.until.len()];
    let rows = columns.into_iter().fold(call.x.len().min(call.observed.len()), usize::min);
    if rows == 0 {
        return;
    }
    let row = rng.below(rows);
    let (last_x, last_y) = call.shape().far_corner();
    match rng.below(if bad { 4 } else { 5 }) {
        0 => call.value[row] = rng.pick(if bad { &BAD_VALUES } else { &EDGE_VALUES }),
        1 => call.x[row] = edge_position(rng, last_x, bad),
        2 => call.y[row] = edge_position(rng, last_y, bad),
        3 => set_service(rng, call, row, bad),
        _ => {
            let oldest = call.time.saturating_sub(call.age);
            let ends = [oldest, oldest.saturating_sub(1), call.time, u32::MAX, 0];
            call.observed[row] = rng.pick(&ends);
        }
    }
}

fn edge_position(rng: &mut Rng, last: i64, bad: bool) -> i32 {
    let far = rng.pick(&[1_000_000, -1_000_000]);
    let past = rng.pick(&[1_000_001, -1_000_001, i32::MAX, i32::MIN]);
    let last = i32::try_from(last).unwrap_or(0);
    if bad {
        past
    } else {
        let border = BORDER as i32;
        let by_border = rng.pick(&[-border, -border - 1, last + border, last + border + 1]);
        rng.pick(&[far, far, -1, 0, last, last + 1, by_border, by_border])
    }
}

fn set_service(rng: &mut Rng, call: &mut Call, row: usize, bad: bool) {
    let (time, observed, until) = (call.time, call.observed[row], call.until[row]);
    let from_then = |minute: u32| (minute.min(NO_END - 1), minute.saturating_add(1));
    (call.from[row], call.until[row]) = match bad {
        true => {
            let below = until.saturating_sub(1);
            rng.pick(&[(until, until), (until, below), (0, 0), (NO_END, NO_END)])
        }
        false => rng.pick(&[from_then(observed), from_then(time), (0, 1), (0, time.max(1))]),
    };
}

/// The analysis minute at its ends, and an age that just holds or does not.
fn set_times(rng: &mut Rng, call: &mut Call) {
    if rng.one_in(2) {
        call.time = rng.pick(&[0, 1, u32::MAX - 1, u32::MAX]);
    }
    let row = rng.below(call.observed.len().max(1));
    let observed = call.observed.get(row).copied().unwrap_or(0);
    let age = call.time.saturating_sub(observed);
    call.age = rng.pick(&[0, u32::MAX, age, age.saturating_sub(1)]);
}

/// Sets some numbers exactly to their bounds, now and then to one past.
pub fn push_to_bounds(rng: &mut Rng, call: &mut Call) {
    for _ in 0..1 + rng.below(4) {
        let past = rng.one_in(9);
        match rng.below(9) {
            0 | 1 => set_plan(rng, call, past),
            2 => set_guess(rng, call, past),
            3 => set_times(rng, call),
            4 if rng.one_in(4) => {
                set_rows(call, rng.pick(&[0, 1, MOST_STATIONS]) + usize::from(past));
            }
            5 if past => break_results(rng, call),
            6 if past => break_scan_count(rng, call),
            _ => set_row(rng, call, past),
        }
    }
    push_check(&mut rng.beside(), call);
}

/// A result of a window query with another length: that of the whole grid, if
/// the window is not all of it, is the likeliest mistake.
pub fn break_window_results(rng: &mut Rng, call: &mut Call) {
    let right = call.grid_len;
    let points = call.first_guess.len();
    let wrong = wrong_length(rng, right);
    let wrong = if points != right { rng.pick(&[points, wrong, wrong]) } else { wrong };
    match rng.below(3) {
        0 => call.grid_len = wrong,
        1 => call.support_len = wrong,
        _ => (call.grid_len, call.support_len) = (wrong, wrong),
    }
}

/// A window with a wrong end, sometimes on a call with another fault. The
/// results are as long as they were, or as what its area wraps to. The ways
/// to go wrong come in turn.
pub fn bad_window(rng: &mut Rng, mut call: Call, good: Window, way: u64) -> (Call, Window) {
    let bad = bad_ends(rng, &call, good, way);
    let wrapped = bad.wrapped_area() as usize;
    if rng.one_in(2) && wrapped <= call.first_guess.len() {
        (call.grid_len, call.support_len) = (wrapped, wrapped);
    }
    if rng.one_in(4) {
        let other = rng.pick(&[1, 3, 4, 5, 6, 7, 8]);
        break_one(rng, &mut call, other);
    }
    (call, bad)
}

/// How many ways to go wrong a window has.
pub const BAD_ENDS: u64 = 16;

/// A good window with a wrong end or two.
pub fn bad_ends(rng: &mut Rng, call: &Call, good: Window, way: u64) -> Window {
    let mut bad = good;
    let more = if way.is_multiple_of(2) { 1 } else { rng.pick(&[1, 2, 70]) };
    match way % BAD_ENDS {
        0 | 1 => bad.left = good.right + more,
        2 | 3 => bad.top = good.bottom + more,
        4 | 5 => bad.right = call.nx - 1 + more,
        6 | 7 => bad.bottom = call.ny - 1 + more,
        8 => bad.left = u32::MAX,
        9 => bad.right = u32::MAX,
        10 => bad.top = u32::MAX,
        11 => bad.bottom = u32::MAX,
        12 => (bad.left, bad.right) = rng.pick(&[(call.nx, call.nx), (u32::MAX, u32::MAX)]),
        13 => (bad.top, bad.bottom) = rng.pick(&[(call.ny, call.ny), (u32::MAX, u32::MAX)]),
        14 => (bad.left, bad.right) = (0, u32::MAX),
        _ => bad = Window::new(0, u32::MAX, 0, u32::MAX),
    }
    bad
}

/// A reading whose shape or lengths are wrong, in turn.
pub fn break_reading(rng: &mut Rng, query: &mut Query, turn: u64) {
    match turn % 3 {
        0 => change_length(rng, &mut query.support, 1),
        _ => break_summary(rng, query, turn / 3),
    }
}

/// A summary whose shape or length is wrong, in turn.
pub fn break_summary(rng: &mut Rng, query: &mut Query, turn: u64) {
    match turn % 6 {
        0 => query.nx = rng.pick(&SIDES),
        1 => query.ny = rng.pick(&SIDES),
        2 => {
            // Out of bounds, with lengths that fit.
            (query.nx, query.ny) = rng.pick(&[(65, query.ny), (query.nx, 65), (1, 5), (5, 1)]);
            let points = query.nx as usize * query.ny as usize;
            query.field.resize(points, 7);
            query.support.resize(points, 1);
        }
        3 => {
            // No points, where a product of 32 bits is 0 too.
            (query.nx, query.ny) = rng.pick(&[(0, 0), (1 << 16, 1 << 16), (1 << 31, 2)]);
            query.field.clear();
            query.support.clear();
        }
        _ => {
            change_length(rng, &mut query.field, 0);
            if rng.one_in(2) {
                query.support.resize(query.field.len(), 1);
            }
        }
    }
}
