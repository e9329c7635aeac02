//! The sorts of stations beyond the border that a run must not lose, by name
//! and number. A name lists in brackets what its numbers, from 0, stand for.

use crate::call::{Call, Window};
use crate::scan::{difference, weight};
use crate::sorts::{floors_of, named, sides, Sort};
use crate::tally::Floor;
use crate::units::{BORDER, STEP};
use crate::verdicts::{ended_in, takes_part, ACCEPTED, OFF_GRID, SET_ASIDE};
use crate::window::{reach, widened};

/// How far out stations must be seen beyond every side and every corner: by
/// the least, and by the border from one short of it to one past it.
pub const DISTANCES: [i32; 4] = [1, BORDER as i32 - 1, BORDER as i32, BORDER as i32 + 1];

const SIDE: &str = "station beyond a side by 1, 255, 256, 257 (left, right, top, bottom)";
const CORNER: &str = "station beyond a corner by 1, 255, 256, 257 in x and, for each, in y \
    (left top, right top, left bottom, right bottom)";
const KEPT: &str = "post accepted (in all, with a weight at a point)";
const GONE: &str = "post rejected (in the first scan, in a later one)";
const EXACT: &str = "post with D (as wide as the least limit, one past the limit)";
const PLAN: &str =
    "post accepted in two scans or more, the limits (all equal, else never falling, falling)";

const INSIDE: &str = "post with its place inside the cut, beyond (left, right, top, bottom)";
const ON_EDGE: &str = "post with its place on the cut's edge, at both ends, beyond \
    (left, right, top, bottom)";
const OUTSIDE: &str = "post with its place one unit outside the cut, at both ends, beyond \
    (left, right, top, bottom)";
const IN_CORNER: &str = "post beyond a corner of the grid that is in the cut \
    (left top, right top, left bottom, right bottom)";
const HEARD: &str = "post heard in the window, beyond (left, right, top, bottom, a corner)";

/// The least of each sort in a full run of calls.
pub fn call_floors() -> Vec<Floor> {
    floors_with(1_000, 20)
}

/// The same in a full run of texts.
pub fn text_floors() -> Vec<Floor> {
    floors_with(200, 20)
}

/// The same in a full run of screens, fewer of which are big.
pub fn screen_floors() -> Vec<Floor> {
    floors_with(1_000, 8)
}

fn floors_with(kept: u64, by_corner: u64) -> Vec<Floor> {
    let others = [(GONE, 2, 200), (SIDE, 16, 100), (EXACT, 2, 200), (PLAN, 3, 200)];
    [floors_of(&[(KEPT, 2, kept), (CORNER, 64, by_corner)]), floors_of(&others)].concat()
}

/// What only windows have, and how often at least at an edge of the cut.
pub fn window_floors(at_an_edge: u64) -> Vec<Floor> {
    floors_of(&[
        (INSIDE, 4, 200),
        (ON_EDGE, 8, at_an_edge),
        (OUTSIDE, 8, at_an_edge),
        (IN_CORNER, 4, 200),
        (HEARD, 5, 200),
    ])
}

/// The real stations have posts of each kind, whatever else they have.
pub fn real_floors() -> Vec<Floor> {
    [KEPT, GONE].iter().flat_map(|name| [0, 1].map(|n| Floor::fixed(name, n, 1))).collect()
}

/// How far out of the grid a row stands on each axis; left and top are below 0.
fn out(call: &Call, row: usize) -> (i32, i32) {
    let (x, y) = (call.x[row], call.y[row]);
    let place = call.shape().nearest(x, y);
    (x - place.0, y - place.1)
}

/// Whether a row stands beyond the border and takes part, by its verdict.
pub fn is_post(call: &Call, row: usize, verdict: u8) -> bool {
    takes_part(verdict) && out(call, row) != (0, 0)
}

/// The sorts of the stations of an accepted request.
pub fn of_accepted(call: &Call, verdict: &[u8]) -> Vec<Sort> {
    let mut sorts = Vec::new();
    for (row, verdict) in verdict.iter().enumerate() {
        if is_post(call, row, *verdict) {
            sorts.extend(of_post(call, row, *verdict));
        }
        if is_post(call, row, *verdict) || *verdict == OFF_GRID {
            sorts.extend(beyond(call, row));
        }
    }
    sorts
}

/// Beyond which side or corner a station stands by one of the distances.
fn beyond(call: &Call, row: usize) -> Option<Sort> {
    let by = |out: i32| (0..).zip(DISTANCES).find(|(_, d)| *d == out.abs()).map(|(n, _)| n);
    let far_side = |out: i32| u32::from(out > 0);
    let (out_x, out_y) = out(call, row);
    Some(match (out_x, out_y) {
        (out_x, 0) => (SIDE, 4 * far_side(out_x) + by(out_x)?),
        (0, out_y) => (SIDE, 8 + 4 * far_side(out_y) + by(out_y)?),
        _ => {
            let corner = far_side(out_x) + 2 * far_side(out_y);
            (CORNER, 16 * corner + 4 * by(out_x)? + by(out_y)?)
        }
    })
}

fn of_post(call: &Call, row: usize, verdict: u8) -> Vec<Sort> {
    let limits = &call.limit[..call.scans as usize];
    let accepted = verdict == ACCEPTED;
    let whole = Window::new(0, call.nx - 1, 0, call.ny - 1);
    let heard = accepted && is_heard(call, row, &whole);
    // By its limit; what its neighbours do is counted in `buddy_sorts`.
    let rejecting = ended_in(verdict).filter(|_| verdict < SET_ASIDE);
    let rejected = [rejecting == Some(0), rejecting > Some(0)];
    let size = difference(call, &call.first_guess, row).abs();
    let exact = [
        accepted && limits.iter().any(|limit| i64::from(*limit) == size),
        rejecting.is_some_and(|scan| i64::from(limits[scan]) + 1 == size),
    ];
    let falls = limits.windows(2).any(|pair| pair[1] < pair[0]);
    let equal = limits.iter().all(|limit| *limit == limits[0]);
    let plans = [equal, !equal && !falls, falls];
    let lasting = accepted && limits.len() > 1;
    [
        named(KEPT, [accepted, heard]),
        named(GONE, rejected),
        named(EXACT, exact),
        named(PLAN, plans.map(|plan| plan && lasting)),
    ]
    .concat()
}

/// Whether a station has a weight at a point of a part of the grid, in the
/// first scan, whose radius is the greatest. No wind takes a weight away.
fn is_heard(call: &Call, row: usize, part: &Window) -> bool {
    let nearest = |position: i32, ends: (u32, u32)| {
        let squares =
            (ends.0..=ends.1).map(|end| (i64::from(position) - STEP * i64::from(end)).pow(2));
        squares.min().unwrap_or(i64::MAX)
    };
    let dx2 = nearest(call.x[row], (part.left, part.right));
    let dy2 = nearest(call.y[row], (part.top, part.bottom));
    weight(i64::from(call.radius[0]).pow(2), dx2 + dy2) > 0
}

/// The sorts of an accepted window query by its posts, with the verdicts of
/// the whole grid.
pub fn of_window(call: &Call, window: &Window, verdict: &[u8]) -> Vec<Sort> {
    let cut = widened(call, window, reach(call));
    let shared = sides(call, &cut);
    let mut found = Found::default();
    for row in (0..verdict.len()).filter(|row| is_post(call, *row, verdict[*row])) {
        let (out_x, out_y) = out(call, row);
        let beyond = [out_x < 0, out_x > 0, out_y < 0, out_y > 0];
        for side in (0..4).filter(|side| beyond[*side] && shared[*side]) {
            found.place(call, &cut, row, side);
        }
        found.corner(beyond, shared);
        let side = beyond.iter().position(|beyond| *beyond).unwrap_or(0);
        let place = if out_x != 0 && out_y != 0 { 4 } else { side };
        found.heard[place] |= verdict[row] == ACCEPTED && is_heard(call, row, window);
    }
    found.sorts()
}

#[derive(Default)]
struct Found {
    inside: [bool; 4],
    on_edge: [bool; 8],
    outside: [bool; 8],
    in_corner: [bool; 4],
    heard: [bool; 5],
}

impl Found {
    /// Where the place of a post beyond a side of the grid lies, along that
    /// side, against the ends of the cut that are not the grid's border.
    fn place(&mut self, call: &Call, cut: &Window, row: usize, side: usize) {
        let (x, y) = call.shape().nearest(call.x[row], call.y[row]);
        let [left, right, top, bottom] = sides(call, cut);
        let (at, low, high, border) = match side {
            0 | 1 => (y, cut.top, cut.bottom, [top, bottom]),
            _ => (x, cut.left, cut.right, [left, right]),
        };
        let past = [64 * low as i32 - at, at - 64 * high as i32];
        let inside = |end: usize| past[end] < 0 || past[end] == 0 && border[end];
        self.inside[side] |= inside(0) && inside(1);
        for end in (0..2).filter(|end| !border[*end]) {
            self.on_edge[2 * side + end] |= past[end] == 0;
            self.outside[2 * side + end] |= past[end] == 1;
        }
    }

    fn corner(&mut self, beyond: [bool; 4], shared: [bool; 4]) {
        let both = |one: usize, other: usize| [one, other].iter().all(|s| beyond[*s] && shared[*s]);
        for (corner, (across, down)) in [(0, 2), (1, 2), (0, 3), (1, 3)].into_iter().enumerate() {
            self.in_corner[corner] |= both(across, down);
        }
    }

    fn sorts(self) -> Vec<Sort> {
        [
            named(INSIDE, self.inside),
            named(ON_EDGE, self.on_edge),
            named(OUTSIDE, self.outside),
            named(IN_CORNER, self.in_corner),
            named(HEARD, self.heard),
        ]
        .concat()
    }
}
