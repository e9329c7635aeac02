//! Demand 3 as a property: the cut by the reach agrees with the whole, and no
//! shorter cut does on the windows that the generator makes.

use crate::faulty::moved_away;
use crate::sample;
use second::call::{Call, Window, WindowAnswer};
use second::generate_window;
use second::scheme::{analyse, run};
use second::window::{cut, pick, reach, rows_on, whole, widened, window};

const SEED: u64 = 41;

/// The window's numbers out of a part of the grid around it.
pub fn from_part(call: &Call, ends: &Window, part: &Window) -> WindowAnswer {
    picked_from(&cut(call, part), ends, part)
}

/// The same, out of a part that is cut already.
pub fn picked_from(cut: &Call, ends: &Window, part: &Window) -> WindowAnswer {
    let (left, top) = (ends.left - part.left, ends.top - part.top);
    let (right, bottom) = (ends.right - part.left, ends.bottom - part.top);
    let analysis = analyse(cut).expect("a cut of an accepted request is accepted");
    pick(cut.shape(), &analysis, &Window::new(left, right, top, bottom))
}

/// Whether they are those of the whole grid.
fn part_agrees(call: &Call, ends: &Window, part: &Window) -> bool {
    from_part(call, ends, part) == window(call, ends).expect("accepted")
}

/// Verdicts of the stations on the unwidened window, in the whole and the cut.
fn verdicts_agree(call: &Call, ends: &Window) -> bool {
    let part = widened(call, ends, reach(call));
    let kept = rows_on(call, &part);
    let in_whole = run(call).verdict;
    let in_cut = run(&cut(call, &part)).verdict;
    rows_on(call, ends).iter().all(|row| {
        let place = kept.iter().position(|kept| kept == row);
        place.is_some_and(|place| in_cut[place] == in_whole[*row])
    })
}

/// Generated windows of accepted requests, with their indices.
pub fn accepted(seed: u64, count: u64) -> impl Iterator<Item = (u64, Call, Window)> {
    let cases = (0..count).map(move |index| (index, generate_window::window(seed, index)));
    let cases = cases.map(|(index, (call, ends))| (index, call, ends));
    cases.filter(|(_, call, ends)| whole(call, ends).is_ok())
}

#[test]
fn the_cut_agrees_with_the_whole() {
    let (mut held, mut smaller, mut along) = (0, 0, 0);
    for (index, call, ends) in accepted(SEED, 6000) {
        held += 1;
        along += usize::from(call.mode == 1 && call.winds.is_some());
        let part = widened(&call, &ends, reach(&call));
        smaller += usize::from(part.area() < call.first_guess.len());
        assert!(part_agrees(&call, &ends, &part), "case {index} of seed {SEED}");
        assert!(verdicts_agree(&call, &ends), "verdicts of case {index} of seed {SEED}");
    }
    assert!(held > 3000, "{held} windows were accepted");
    assert!(smaller > 1500, "{smaller} cuts were smaller than the grid");
    assert!(along > 1200, "{along} windows went along the wind");
}

/// A part of the grid that somebody might take for the cut.
pub type Part = fn(&Call, &Window) -> Window;

fn steps(call: &Call, each: fn(u32) -> u32, smoothing: u32) -> u32 {
    let radii = call.radius[..call.scans as usize].iter();
    radii.map(|radius| each(radius.unsigned_abs())).sum::<u32>() + smoothing
}

fn largest_only(call: &Call, ends: &Window) -> Window {
    widened(call, ends, call.radius[0].unsigned_abs().div_ceil(64) + u32::from(call.smooth))
}

fn rounded_down(call: &Call, ends: &Window) -> Window {
    let smoothing = call.scans * u32::from(call.smooth);
    widened(call, ends, steps(call, |radius| radius / 64, smoothing).max(1))
}

fn no_smoothing_step(call: &Call, ends: &Window) -> Window {
    widened(call, ends, steps(call, |radius| radius.div_ceil(64), 0))
}

fn one_smoothing_step(call: &Call, ends: &Window) -> Window {
    widened(call, ends, steps(call, |radius| radius.div_ceil(64), call.smooth.into()))
}

/// The cut less its outermost column or row on one side, unless the window or
/// the least grid is in the way.
fn one_less(call: &Call, ends: &Window, side: usize) -> Window {
    let part = widened(call, ends, reach(call));
    let Window { left, right, top, bottom } = part;
    let shorter = match side {
        0 if left < ends.left && right - left > 1 => Window { left: left + 1, ..part },
        1 if right > ends.right && right - left > 1 => Window { right: right - 1, ..part },
        2 if top < ends.top && bottom - top > 1 => Window { top: top + 1, ..part },
        3 if bottom > ends.bottom && bottom - top > 1 => Window { bottom: bottom - 1, ..part },
        _ => part,
    };
    let border = [left == 0, right == call.nx - 1, top == 0, bottom == call.ny - 1];
    // The grid's own border is no matter of the reach.
    if border[side] {
        part
    } else {
        shorter
    }
}

pub const TOO_SMALL: [(&str, Part); 8] = [
    ("the largest radius only", largest_only),
    ("R/64 rounded down", rounded_down),
    ("no step for smoothing", no_smoothing_step),
    ("one step for all smoothing", one_smoothing_step),
    ("a column less on the left", |call, ends| one_less(call, ends, 0)),
    ("a column less on the right", |call, ends| one_less(call, ends, 1)),
    ("a row less at the top", |call, ends| one_less(call, ends, 2)),
    ("a row less at the bottom", |call, ends| one_less(call, ends, 3)),
];

/// So many generated cases, of any seed, show each fault of a cut. Over 20
/// seeds the first that did was case 238 at the latest.
const ENOUGH: u64 = 500;

#[test]
fn a_reach_that_is_too_short_is_seen_early() {
    for (name, part) in TOO_SMALL {
        for seed in 0..5 {
            let differs = |(_, call, ends): (u64, Call, Window)| {
                !part_agrees(&call, &ends, &part(&call, &ends))
            };
            assert!(accepted(seed, ENOUGH).any(differs), "{name} was not seen at seed {seed}");
        }
    }
}

/// A cut without the stations on its edges. Where an edge of the cut is the
/// grid's border they speak.
fn without_edges(call: &Call, part: &Window) -> Call {
    let at = |end: u32| 64 * end as i32;
    moved_away(call, |row| {
        let on_column = [at(part.left), at(part.right)].contains(&call.x[row]);
        on_column || [at(part.top), at(part.bottom)].contains(&call.y[row])
    })
}

#[test]
fn edge_stations_that_are_left_out_are_seen_early() {
    for seed in 0..5 {
        let differs = |(_, call, ends): (u64, Call, Window)| {
            let part = widened(&call, &ends, reach(&call));
            let faulty = from_part(&without_edges(&call, &part), &ends, &part);
            faulty != window(&call, &ends).expect("accepted")
        };
        assert!(accepted(seed, ENOUGH).any(differs), "not seen at seed {seed}");
    }
}

#[test]
fn a_window_gives_the_whole_grids_numbers() {
    let mut call = sample();
    (call.grid_len, call.support_len, call.verdict_len) = (2, 2, 0);
    let answer = window(&call, &Window::new(0, 1, 1, 1)).expect("accepted");
    assert_eq!((answer.grid, answer.support), (vec![672, 757], vec![1, 1]));
}
