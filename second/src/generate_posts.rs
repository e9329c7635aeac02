//! The generator of stations beyond the border of the grid: posts, and those
//! that are just too far out to be one.

use crate::call::{Call, Window};
use crate::generate::{guess_at, push_station};
use crate::post_sorts::DISTANCES;
use crate::rng::Rng;
use crate::units::{MOST_STATIONS, VALUE};
use crate::window::{reach, widened};

/// Out of the grid along x and along y: the four sides and the four corners.
const WAYS: [(i32, i32); 8] =
    [(-1, 0), (1, 0), (0, -1), (0, 1), (-1, -1), (1, -1), (-1, 1), (1, 1)];

/// A place beyond any side or corner of the grid.
pub fn beyond(rng: &mut Rng, call: &Call) -> (i32, i32) {
    let (across, down) = rng.pick(&WAYS);
    (along(rng, across, call.nx), along(rng, down, call.ny))
}

/// The position along an axis: out of the grid on the side asked for, or on
/// the grid, often on a line of it.
fn along(rng: &mut Rng, out: i32, points: u32) -> i32 {
    let last = 64 * points as i32 - 64;
    let any = rng.between(0, last.max(0));
    match out {
        0 => rng.pick(&[any, any, any / 64 * 64, 0, last]),
        1 => last + distance(rng),
        _ => -distance(rng),
    }
}

/// How far out, mostly by one of the distances; few are far out, and those at
/// hand move the most points.
pub fn distance(rng: &mut Rng) -> i32 {
    let (near, any, far) = (rng.between(1, 64), rng.between(2, 254), rng.between(258, 400));
    match rng.below(12) {
        0..=7 => rng.pick(&DISTANCES),
        8 | 9 => near,
        10 => any,
        _ => far,
    }
}

/// Adds a station beyond a corner, by two of the distances, to an eighth of the
/// requests. Windows and screens have few stations, and seldom one at each of these
/// places.
pub fn add_beyond_a_corner(rng: &Rng, call: &mut Call) {
    // The sources before it are those of the rims and of the points.
    let rng = &mut rng.beside().beside().beside();
    if call.x.len() >= MOST_STATIONS || !rng.one_in(8) {
        return;
    }
    let mut past = |points: u32| {
        let (out, last) = (rng.pick(&DISTANCES), 64 * points as i32 - 64);
        rng.pick(&[-out, last + out])
    };
    let (x, y) = (past(call.nx), past(call.ny));
    let value = guess_at(call, x, y) + rng.between(-30, 30);
    push_station(call, x, y, value.clamp(*VALUE.start(), *VALUE.end()));
}

/// Moves some stations beyond the sides that the cut of a window shares with
/// the grid. The nearest place of each on the grid is by the window, in the
/// cut, on its edge, or one unit to either side of that. Most of them report
/// about what the first guess has there.
pub fn move_beyond_the_cut(rng: &mut Rng, call: &mut Call, window: &Window) {
    let cut = widened(call, window, reach(call));
    for row in 0..call.x.len() {
        if !rng.one_in(4) {
            continue;
        }
        let Some((x, y)) = beyond_the_cut(rng, call, window, &cut) else {
            return;
        };
        (call.x[row], call.y[row]) = (x, y);
        if !rng.one_in(4) {
            let value = guess_at(call, x, y) + rng.between(-100, 100);
            call.value[row] = value.clamp(*VALUE.start(), *VALUE.end());
        }
    }
}

fn beyond_the_cut(rng: &mut Rng, call: &Call, window: &Window, cut: &Window) -> Option<(i32, i32)> {
    let before = -distance(rng);
    let past = |points: u32| 64 * points as i32 - 64 - before;
    let x = beside(rng, call.nx, (window.left, window.right), (cut.left, cut.right));
    let y = beside(rng, call.ny, (window.top, window.bottom), (cut.top, cut.bottom));
    let ways = [
        (cut.left == 0, (before, y)),
        (cut.right == call.nx - 1, (past(call.nx), y)),
        (cut.top == 0, (x, before)),
        (cut.bottom == call.ny - 1, (x, past(call.ny))),
    ];
    let shared: Vec<_> = ways.into_iter().filter(|way| way.0).map(|way| way.1).collect();
    (!shared.is_empty()).then(|| rng.pick(&shared))
}

/// A position along the other axis, from the ends of the window and its cut;
/// by an end of the cut that is not the grid's border, if it has one.
fn beside(rng: &mut Rng, points: u32, window: (u32, u32), cut: (u32, u32)) -> i32 {
    let at = |end: u32| 64 * end as i32;
    let by_window = rng.between(at(window.0), at(window.1));
    let in_cut = rng.between(at(cut.0), at(cut.1));
    let edge = match (cut.0 > 0, cut.1 < points - 1) {
        (true, false) => cut.0,
        (false, true) => cut.1,
        _ => rng.pick(&[cut.0, cut.1]),
    };
    let by_edge = at(edge) + rng.pick(&[-1, 0, 1]);
    rng.pick(&[by_window, in_cut, by_edge, by_edge])
}
