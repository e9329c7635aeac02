//! The shrinker: from a failing case to a small one that still fails.

use crate::call::{Buddy, Call, Query, Window, Winds};
use crate::compare::Case;
use crate::refusals::is_on_grid;
use crate::text::parse;
use crate::units::{BUDDY_LIMIT, BUDDY_RADIUS, MISSING, MODES, NO_END, ROUND, RULES};
use crate::write::{request_text, Style};
use std::iter::successors;
use std::ops::Range;

/// An end to patience; small cases are found long before it.
const MOST_TRIES: usize = 30_000;
/// A long text has too many smaller ones to make or try them all; the first
/// of them drop the most, and once it is short none is left out.
const MOST_AT_ONCE: usize = 2_000;

/// Takes the first smaller case that still fails, again and again.
pub fn smallest<C: Case>(case: C, still_fails: &dyn Fn(&C) -> bool) -> C {
    let mut case = case;
    let mut tries = 0;
    loop {
        let found = case.smaller().take(MOST_TRIES - tries).find(|smaller| {
            tries += 1;
            still_fails(smaller)
        });
        match found {
            Some(smaller) => case = smaller,
            None => return case,
        }
    }
}

/// Ranges to drop from n things: all, halves, quarters, down to single ones.
pub fn chunks(n: usize) -> impl Iterator<Item = Range<usize>> {
    let sizes = successors(Some(n), |size| Some(size / 2)).take_while(|size| *size > 0);
    sizes.flat_map(move |size| {
        let starts = (0..n).step_by(size);
        starts.map(move |start| start..(start + size).min(n))
    })
}

/// Drops a range as far as the column has it.
pub fn drop_range<T>(column: &mut Vec<T>, range: &Range<usize>) {
    let end = range.end.min(column.len());
    column.drain(range.start.min(end)..end);
}

/// Calls of a whole analysis that are smaller; results keep being too long or
/// too short by as much as they were.
pub fn smaller_calls(call: &Call) -> impl Iterator<Item = Call> + '_ {
    let parts = parts(call.nx, call.ny, call.first_guess.len());
    let trims = parts.into_iter().map(|part| {
        let mut trimmed = trimmed(call, &part);
        let (old, new) = (call.first_guess.len(), trimmed.first_guess.len());
        trimmed.grid_len = (call.grid_len + new).saturating_sub(old);
        trimmed.support_len = (call.support_len + new).saturating_sub(old);
        trimmed
    });
    fewer_stations(call)
        .chain(fewer_scans(call))
        .chain(trims)
        .chain(fewer_points(call))
        .chain(fitting_results(call))
        .chain(simpler(call))
}

fn fewer_points(call: &Call) -> impl Iterator<Item = Call> + '_ {
    misfits(call.nx, call.ny, &call.first_guess).map(|(nx, ny, first_guess)| Call {
        nx,
        ny,
        first_guess,
        ..call.clone()
    })
}

/// Where the sides do not fit the number of points: fewer points, or sides
/// nearer to the least.
pub fn misfits(
    nx: u32,
    ny: u32,
    points: &[i32],
) -> impl Iterator<Item = (u32, u32, Vec<i32>)> + '_ {
    let misfit = u64::from(nx) * u64::from(ny) != points.len() as u64;
    let sides = |side: u32| closer(side.into(), 2).map(|side| side as u32);
    let fewer = chunks(points.len()).map(move |range| {
        let mut points = points.to_vec();
        drop_range(&mut points, &range);
        (nx, ny, points)
    });
    fewer
        .chain(sides(nx).map(move |nx| (nx, ny, points.to_vec())))
        .chain(sides(ny).map(move |ny| (nx, ny, points.to_vec())))
        .filter(move |_| misfit)
}

/// Result slices of the length that is asked for, or nearer to it.
fn fitting_results(call: &Call) -> impl Iterator<Item = Call> + '_ {
    let (points, rows) = (call.first_guess.len(), call.x.len());
    let lengths =
        |length: usize, fit: usize| closer(length as i64, fit as i64).map(|length| length as usize);
    let grids = lengths(call.grid_len, points).map(|grid_len| Call { grid_len, ..call.clone() });
    let supports = lengths(call.support_len, points);
    let supports = supports.map(|support_len| Call { support_len, ..call.clone() });
    let verdicts = lengths(call.verdict_len, rows);
    let verdicts = verdicts.map(|verdict_len| Call { verdict_len, ..call.clone() });
    grids.chain(supports).chain(verdicts)
}

/// Window queries that are smaller: grids cut down around the window, or the
/// window itself narrowed.
pub fn smaller_windows<'a>(
    call: &'a Call,
    window: &'a Window,
) -> impl Iterator<Item = (Call, Window)> + 'a {
    let keep = move |call: Call| (call, *window);
    let in_order = window.left <= window.right && window.top <= window.bottom;
    let holds = move |part: &Window| {
        let across = part.left <= window.left && window.right <= part.right;
        in_order && across && part.top <= window.top && window.bottom <= part.bottom
    };
    let parts = parts(call.nx, call.ny, call.first_guess.len());
    let trims = parts.into_iter().filter(holds).map(move |part| {
        let (left, right) = (window.left - part.left, window.right - part.left);
        let (top, bottom) = (window.top - part.top, window.bottom - part.top);
        let moved = Window::new(left, right, top, bottom);
        (trimmed(call, &part), moved)
    });
    fewer_stations(call)
        .chain(fewer_scans(call))
        .map(keep)
        .chain(trims)
        .chain(narrower(call, *window))
        .chain(simpler(call).map(keep))
}

/// A good window's outer columns or rows alone, or all but one of them.
pub fn narrowed(window: Window) -> impl Iterator<Item = Window> {
    let Window { left, right, top, bottom } = window;
    let windows = [
        Window::new(right, right, top, bottom),
        Window::new(left, left, top, bottom),
        Window::new(left, right, bottom, bottom),
        Window::new(left, right, top, top),
        Window::new(left, right.saturating_sub(1), top, bottom),
        Window::new(left, right, top, bottom.saturating_sub(1)),
    ];
    let in_order = |window: &Window| window.left <= window.right && window.top <= window.bottom;
    windows.into_iter().filter(move |new| in_order(new) && *new != window)
}

/// The call with the window narrowed, if that is good.
fn narrower(call: &Call, window: Window) -> impl Iterator<Item = (Call, Window)> + '_ {
    let sound = is_on_grid(call, &window);
    narrowed(window).filter(move |_| sound).map(move |new| {
        let mut call = call.clone();
        call.grid_len = (call.grid_len + new.area()).saturating_sub(window.area());
        call.support_len = (call.support_len + new.area()).saturating_sub(window.area());
        (call, new)
    })
}

pub fn fewer_stations(call: &Call) -> impl Iterator<Item = Call> + '_ {
    let minutes = call.observed.len().max(call.from.len()).max(call.until.len());
    let winds = call.winds.iter().flat_map(Winds::columns).map(Vec::len);
    let minutes = winds.fold(minutes, usize::max);
    let rows = call.x.len().max(call.y.len()).max(call.value.len()).max(minutes);
    chunks(rows).map(|range| {
        let mut call = call.clone();
        let before = call.x.len();
        drop_range(&mut call.x, &range);
        drop_range(&mut call.y, &range);
        drop_range(&mut call.value, &range);
        drop_range(&mut call.observed, &range);
        drop_range(&mut call.from, &range);
        drop_range(&mut call.until, &range);
        let winds = call.winds.iter_mut().flat_map(Winds::columns_mut);
        winds.for_each(|column| drop_range(column, &range));
        call.verdict_len = call.verdict_len.saturating_sub(before - call.x.len());
        call
    })
}

pub fn fewer_scans(call: &Call) -> impl Iterator<Item = Call> + '_ {
    let entries = call.radius.len().max(call.limit.len());
    chunks(entries).map(move |range| {
        let mut call = call.clone();
        drop_range(&mut call.radius, &range);
        drop_range(&mut call.limit, &range);
        let scans = call.scans as usize;
        let dropped = range.end.min(scans).saturating_sub(range.start);
        call.scans -= dropped as u32;
        call
    })
}

/// The halves of a grid and the grid less one outer column or row; none where
/// the sides do not fit the number of points.
pub fn parts(nx: u32, ny: u32, points: usize) -> Vec<Window> {
    if points == 0 || u64::from(nx) * u64::from(ny) != points as u64 {
        return Vec::new();
    }
    let across = kept_ranges(nx).map(|(left, right)| Window::new(left, right, 0, ny - 1));
    let down = kept_ranges(ny).map(|(top, bottom)| Window::new(0, nx - 1, top, bottom));
    across.chain(down).collect()
}

fn kept_ranges(side: u32) -> impl Iterator<Item = (u32, u32)> {
    let (half, last) = (side / 2, side.saturating_sub(1));
    let ranges =
        [(0, half.saturating_sub(1)), (half, last), (0, last.saturating_sub(1)), (1, last)];
    ranges.into_iter().filter(move |range| side > 2 && range.0 < range.1)
}

/// The call on a part of its grid; stations keep their places on the ground.
pub fn trimmed(call: &Call, part: &Window) -> Call {
    let (dx, dy) = (64 * part.left as i32, 64 * part.top as i32);
    let first_guess = picked(&call.first_guess, call.nx, part);
    Call {
        nx: part.right - part.left + 1,
        ny: part.bottom - part.top + 1,
        first_guess,
        x: call.x.iter().map(|x| x.saturating_sub(dx)).collect(),
        y: call.y.iter().map(|y| y.saturating_sub(dy)).collect(),
        ..call.clone()
    }
}

pub fn picked<T: Copy>(points: &[T], nx: u32, part: &Window) -> Vec<T> {
    let rows = points.chunks(nx as usize);
    let rows = rows.skip(part.top as usize).take((part.bottom - part.top) as usize + 1);
    rows.flat_map(|row| &row[part.left as usize..=part.right as usize]).copied().collect()
}

/// The same shape with simpler numbers: first all at once, then one by one.
pub fn simpler(call: &Call) -> impl Iterator<Item = Call> + '_ {
    let all_at_once = [
        Call { smooth: false, ..call.clone() },
        Call { winds: None, mode: ROUND, ..call.clone() },
        Call { winds: None, ..call.clone() },
        Call { rule: None, ..call.clone() },
        Call { buddy: None, ..call.clone() },
        Call { buddy: call.check(), ..call.clone() },
        at_level_zero(call),
        in_service_for_good(call),
    ];
    all_at_once
        .into_iter()
        .filter(move |simpler| simpler != call)
        .chain(lower_modes(call))
        .chain(lower_rules(call))
        .chain(lower_checks(call))
        .chain(weaker_winds(call))
        .chain(nearer(call, |call| &mut call.first_guess, 0))
        .chain(nearer(call, |call| &mut call.radius, 64))
        .chain(nearer(call, |call| &mut call.limit, 0))
        .chain(nearer(call, |call| &mut call.x, 0))
        .chain(nearer(call, |call| &mut call.y, 0))
        .chain(nearer(call, |call| &mut call.value, 0))
        .chain(nearer(call, |call| &mut call.from, 0))
        .chain(nearer(call, |call| &mut call.until, NO_END))
        .chain(nearer(call, |call| &mut call.observed, call.time))
}

/// The modes that there are and the first that there is not, below the call's.
fn lower_modes(call: &Call) -> impl Iterator<Item = Call> + '_ {
    let modes = *MODES.start()..=*MODES.end() + 1;
    modes.filter(|mode| *mode < call.mode).map(|mode| Call { mode, ..call.clone() })
}

/// The rules that there are, below the call's; from one that there is not, also the
/// first on either side.
fn lower_rules(call: &Call) -> impl Iterator<Item = Call> + '_ {
    let rules = *RULES.start() - 1..=*RULES.end() + 1;
    let is_lower =
        |rule: &u32, given: u32| *rule < given && (RULES.contains(rule) || !RULES.contains(&given));
    let lower = rules.filter(move |rule| call.rule.is_some_and(|given| is_lower(rule, given)));
    lower.map(|rule| Call { rule: Some(rule), ..call.clone() })
}

/// Buddy checks with B or L nearer to the least that it may be.
fn lower_checks(call: &Call) -> impl Iterator<Item = Call> + '_ {
    let nearer = |number: i32, least: i32| {
        closer(number.into(), least.into()).map(move |nearer| nearer as i32)
    };
    let checks = call.buddy.into_iter().flat_map(move |buddy| {
        let radii = nearer(buddy.radius, *BUDDY_RADIUS.start());
        let limits = nearer(buddy.limit, *BUDDY_LIMIT.start());
        let radii = radii.map(move |radius| Buddy { radius, ..buddy });
        radii.chain(limits.map(move |limit| Buddy { limit, ..buddy }))
    });
    checks.map(|buddy| Call { buddy: Some(buddy), ..call.clone() })
}

/// Calls without the wind of a row, or with one of its numbers nearer to zero.
/// A mark in one column alone stays, so that no number becomes a mark again.
fn weaker_winds(call: &Call) -> impl Iterator<Item = Call> + '_ {
    let winds = call.winds.iter().flat_map(|winds| {
        let pairs = winds.u.iter().copied().zip(winds.v.iter().copied());
        pairs.enumerate().flat_map(|(row, wind)| weaker(wind).map(move |weaker| (row, weaker)))
    });
    winds.map(|(row, weaker)| {
        let mut call = call.clone();
        let winds = call.winds_mut();
        (winds.u[row], winds.v[row]) = weaker;
        call
    })
}

fn weaker((u, v): (i32, i32)) -> impl Iterator<Item = (i32, i32)> {
    let nearer = |number: i32| {
        let nearer = closer(number.into(), 0).map(|nearer| nearer as i32);
        nearer.filter(move |_| number != MISSING)
    };
    let none = (MISSING, MISSING);
    let missing = [none].into_iter().filter(move |none| (u, v) != *none);
    missing.chain(nearer(u).map(move |u| (u, v))).chain(nearer(v).map(move |v| (u, v)))
}

/// Values and first guess moved down together, the first point to zero.
fn at_level_zero(call: &Call) -> Call {
    let level = call.first_guess.first().copied().unwrap_or(0);
    let mut call = call.clone();
    let stations = call.value.iter_mut().filter(|value| **value != i32::MIN);
    for value in call.first_guess.iter_mut().chain(stations) {
        *value = value.saturating_sub(level);
    }
    call
}

fn in_service_for_good(call: &Call) -> Call {
    let mut call = call.clone();
    (call.time, call.age) = (0, 0);
    call.observed.fill(0);
    call.from.fill(0);
    call.until.fill(NO_END);
    call
}

/// Calls with one number of a column on its target, or nearer to it.
fn nearer<'a, T>(
    call: &'a Call,
    column: fn(&mut Call) -> &mut Vec<T>,
    target: T,
) -> impl Iterator<Item = Call> + 'a
where
    T: Copy + Into<i64> + TryFrom<i64> + 'a,
{
    let numbers = column(&mut call.clone()).clone();
    let changes = numbers.into_iter().enumerate().flat_map(move |(at, number)| {
        let closer = closer(number.into(), target.into());
        closer.filter_map(move |number| Some((at, T::try_from(number).ok()?)))
    });
    changes.map(move |(at, number)| {
        let mut call = call.clone();
        column(&mut call)[at] = number;
        call
    })
}

/// The target, half way to it and an eighth of the way, if not there yet.
pub fn closer(number: i64, target: i64) -> impl Iterator<Item = i64> {
    let away = number - target;
    let eighths = [0, 4, 7].into_iter().filter(move |_| away != 0);
    eighths.map(move |left| target + away * left / 8)
}

/// The values with one of them at zero, or nearer to it.
pub fn nearer_to_zero(values: &[i32]) -> impl Iterator<Item = Vec<i32>> + '_ {
    values.iter().enumerate().flat_map(move |(at, value)| {
        closer((*value).into(), 0).map(move |nearer| {
            let mut values = values.to_vec();
            values[at] = nearer as i32;
            values
        })
    })
}

/// Readings and summaries with a smaller grid or simpler numbers.
pub fn smaller_queries(query: &Query) -> impl Iterator<Item = Query> + '_ {
    let equal = query.field.len() == query.support.len();
    let parts = parts(query.nx, query.ny, query.field.len());
    let trims = parts.into_iter().filter(move |_| equal).map(move |part| Query {
        nx: part.right - part.left + 1,
        ny: part.bottom - part.top + 1,
        field: picked(&query.field, query.nx, &part),
        support: picked(&query.support, query.nx, &part),
        x: query.x.saturating_sub(64 * part.left as i32),
        y: query.y.saturating_sub(64 * part.top as i32),
    });
    trims.chain(simpler_queries(query))
}

fn simpler_queries(query: &Query) -> impl Iterator<Item = Query> + '_ {
    let xs = closer(query.x.into(), 0).map(|x| (x as i32, query.y));
    let ys = closer(query.y.into(), 0).map(|y| (query.x, y as i32));
    let places = xs.chain(ys).map(|(x, y)| Query { x, y, ..query.clone() });
    let values = nearer_to_zero(&query.field).map(|field| Query { field, ..query.clone() });
    let many = query.support.iter().enumerate().filter(|(_, byte)| **byte > 1);
    let supports = many.map(move |(at, _)| {
        let mut query = query.clone();
        query.support[at] = 1;
        query
    });
    places.chain(values).chain(supports)
}

/// Texts of smaller requests where the text is one, then texts with lines and
/// bytes left out. Each is shorter, or as long and lower, so this ends.
pub fn smaller_texts(text: &[u8]) -> Box<dyn Iterator<Item = Vec<u8>> + '_> {
    let lines: Vec<&[u8]> = text.split_inclusive(|byte| *byte == b'\n').collect();
    let fewer_lines = chunks(lines.len()).take(MOST_AT_ONCE).map(move |range| {
        let mut kept = lines.clone();
        drop_range(&mut kept, &range);
        kept.concat()
    });
    let fewer_bytes = chunks(text.len()).take(MOST_AT_ONCE).map(move |range| {
        let mut kept = text.to_vec();
        drop_range(&mut kept, &range);
        kept
    });
    Box::new(smaller_requests(text).chain(fewer_lines).chain(fewer_bytes))
}

fn smaller_requests(text: &[u8]) -> impl Iterator<Item = Vec<u8>> + '_ {
    let calls = parse(text).into_iter().flat_map(|call| {
        let calls: Vec<Call> = smaller_calls(&call).take(MOST_AT_ONCE).collect();
        calls
    });
    calls
        .filter_map(|call| request_text(&call, Style::default()))
        .filter(move |smaller| (smaller.len(), &smaller[..]) < (text.len(), text))
}
