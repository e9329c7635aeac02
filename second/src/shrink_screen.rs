//! The shrinker of screens: fewer windows, narrower ones, nearer ends of bad
//! ones, and the smaller calls behind them.

use crate::call::{Call, Screen, Window};
use crate::field::Shape;
use crate::refusals::{check_shape, is_on_grid};
use crate::screen::points;
use crate::shrink::{
    chunks, closer, drop_range, fewer_scans, fewer_stations, narrowed, parts, simpler, trimmed,
};
use crate::units::STEP;
use std::ops::Range;

/// Screens that are smaller. Results keep being too long or too short by as
/// much as they were.
pub fn smaller_screens<'a>(
    call: &'a Call,
    screen: &'a Screen,
) -> impl Iterator<Item = (Call, Screen)> + 'a {
    let keep = move |call: Call| (call, screen.clone());
    let with = move |new: Screen| (measured(call, screen, &new), new);
    fewer_windows(screen)
        .map(with)
        .chain(fewer_stations(call).chain(fewer_scans(call)).map(keep))
        .chain(trims(call, screen))
        .chain(squeezed(call, screen))
        .chain(narrower(call, screen).map(with))
        .chain(nearer_ends(call, screen).map(with))
        .chain(fitting_results(call, screen).map(keep))
        .chain(simpler(call).map(keep))
}

/// The points of those windows that are good.
fn good_points(call: &Call, screen: &Screen) -> usize {
    let mut windows = screen.windows();
    windows.retain(|window| is_on_grid(call, window));
    points(&windows)
}

/// The call with results as much off for a new screen as they were for the old.
fn measured(call: &Call, old: &Screen, new: &Screen) -> Call {
    let (before, after) = (good_points(call, old), good_points(call, new));
    let moved = |length: usize| (length + after).saturating_sub(before);
    let (grid_len, support_len) = (moved(call.grid_len), moved(call.support_len));
    Call { grid_len, support_len, ..call.clone() }
}

/// Some windows left out of all four columns, as far as these have them.
fn fewer_windows(screen: &Screen) -> impl Iterator<Item = Screen> + '_ {
    let longest = screen.columns().iter().map(|column| column.len()).max().unwrap_or(0);
    chunks(longest).map(|range| {
        let mut screen = screen.clone();
        screen.columns_mut().into_iter().for_each(|column| drop_range(column, &range));
        screen
    })
}

/// Grids cut down around the good windows; the ends move with them.
fn trims<'a>(call: &'a Call, screen: &'a Screen) -> impl Iterator<Item = (Call, Screen)> + 'a {
    let mut good = screen.windows();
    good.retain(|window| is_on_grid(call, window));
    let holds = move |part: &Window| {
        good.iter().all(|window| {
            let across = part.left <= window.left && window.right <= part.right;
            across && part.top <= window.top && window.bottom <= part.bottom
        })
    };
    let parts = parts(call.nx, call.ny, call.first_guess.len());
    parts.into_iter().filter(holds).map(move |part| {
        let mut screen = screen.clone();
        let offsets = [part.left, part.left, part.top, part.top];
        for (column, offset) in screen.columns_mut().into_iter().zip(offsets) {
            column.iter_mut().for_each(|end| *end = end.saturating_sub(offset));
        }
        (trimmed(call, &part), screen)
    })
}

/// Grids without some columns or rows on which no good window lies: what is past
/// them moves up, so that windows far apart need no large grid.
fn squeezed<'a>(call: &'a Call, screen: &'a Screen) -> impl Iterator<Item = (Call, Screen)> + 'a {
    let mut good = screen.windows();
    good.retain(|window| is_on_grid(call, window));
    // None where the sides do not fit the number of points.
    let shape = check_shape(call.nx, call.ny, call.first_guess.len());
    let Shape { nx, ny } = shape.unwrap_or(Shape { nx: 0, ny: 0 });
    let ranges = |axis: Axis, side: usize| chunks(side).map(move |range| (axis, range));
    let all = ranges(Axis::Across, nx).chain(ranges(Axis::Down, ny));
    let free = move |(axis, range): &(Axis, Range<usize>)| {
        let bare = |window: &Window| {
            let first = axis.of([window.left, window.top]) as usize;
            let last = axis.of([window.right, window.bottom]) as usize;
            last < range.start || range.end <= first
        };
        axis.of([nx, ny]) - range.len() >= 2 && good.iter().all(bare)
    };
    all.filter(free).map(move |(axis, range)| without(call, screen, axis, &range))
}

#[derive(Clone, Copy, PartialEq, Eq)]
enum Axis {
    Across,
    Down,
}

impl Axis {
    /// What belongs to the axis out of two things, the first of them across.
    fn of<T: Copy>(self, [across, down]: [T; 2]) -> T {
        match self {
            Axis::Across => across,
            Axis::Down => down,
        }
    }
}

/// A range of columns or rows left out. Stations on it stand before it then.
fn without(call: &Call, screen: &Screen, axis: Axis, range: &Range<usize>) -> (Call, Screen) {
    let (mut new, mut ends) = (call.clone(), screen.clone());
    let (start, end, gone) = (range.start as i64, range.end as i64, range.len() as i64);
    let moved = |position: i64, step: i64| match position {
        past if past >= step * end => past - step * gone,
        other => other.min(step * start),
    };
    let kept = |point: &usize| {
        let place = [point % call.nx as usize, point / call.nx as usize];
        !range.contains(&axis.of(place))
    };
    let points = (0..call.first_guess.len()).filter(kept);
    new.first_guess = points.map(|point| call.first_guess[point]).collect();
    let (side, positions, columns) = match axis {
        Axis::Across => (&mut new.nx, &mut new.x, [&mut ends.left, &mut ends.right]),
        Axis::Down => (&mut new.ny, &mut new.y, [&mut ends.top, &mut ends.bottom]),
    };
    *side -= gone as u32;
    positions.iter_mut().for_each(|at| *at = moved(i64::from(*at), STEP) as i32);
    columns.into_iter().flatten().for_each(|at| *at = moved(i64::from(*at), 1) as u32);
    (new, ends)
}

/// A good window's outer columns or rows alone, or all but one of them.
fn narrower<'a>(call: &'a Call, screen: &'a Screen) -> impl Iterator<Item = Screen> + 'a {
    let windows = screen.windows().into_iter().enumerate();
    let good = windows.filter(|(_, window)| is_on_grid(call, window));
    let new = good.flat_map(|(at, window)| narrowed(window).map(move |new| (at, new)));
    new.map(|(at, new)| {
        let mut screen = screen.clone();
        (screen.left[at], screen.right[at]) = (new.left, new.right);
        (screen.top[at], screen.bottom[at]) = (new.top, new.bottom);
        screen
    })
}

/// A bad window's ends nearer to 0, and ends that belong to no window. An end
/// of a good window stays: with a lower one it might be wider.
fn nearer_ends<'a>(call: &'a Call, screen: &'a Screen) -> impl Iterator<Item = Screen> + 'a {
    let windows = screen.windows();
    let is_good = move |at: usize| windows.get(at).is_some_and(|window| is_on_grid(call, window));
    let columns = screen.columns().map(Vec::clone).into_iter().enumerate();
    let ends = columns
        .flat_map(|(column, ends)| ends.into_iter().enumerate().map(move |end| (column, end)));
    ends.filter(move |(_, (at, _))| !is_good(*at)).flat_map(move |(column, (at, end))| {
        closer(end.into(), 0).map(move |end| {
            let mut screen = screen.clone();
            screen.columns_mut()[column][at] = end as u32;
            screen
        })
    })
}

/// Results of the length that is asked for, or nearer to it.
fn fitting_results<'a>(call: &'a Call, screen: &Screen) -> impl Iterator<Item = Call> + 'a {
    let asked = good_points(call, screen) as i64;
    let lengths = move |length: usize| closer(length as i64, asked).map(|length| length as usize);
    let grids = lengths(call.grid_len).map(|grid_len| Call { grid_len, ..call.clone() });
    let supports = lengths(call.support_len);
    grids.chain(supports.map(|support_len| Call { support_len, ..call.clone() }))
}
