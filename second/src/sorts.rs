//! The sorts of window query that a run must not lose, by name and number.
//! A name lists in brackets what its numbers, from 0, stand for.

use crate::call::{Call, Window};
use crate::tally::Floor;
use crate::window::{reach, widened};

pub type Sort = (&'static str, u32);

const CORNER: &str = "window on a corner (left top, right top, left bottom, right bottom)";
const EDGE: &str = "window on one edge (left, right, top, bottom)";
const SHAPE: &str = "window of (all points, inner points, one column, one row, one point)";
const CUT: &str = "cut's edge inside the grid (left, right, top, bottom)";
const ON_CUT: &str = "station on the cut's edge (left, right, top, bottom)";
const INSIDE_CUT: &str = "station one unit inside the cut (left, right, top, bottom)";
const OUTSIDE_CUT: &str = "station one unit outside the cut (left, right, top, bottom)";
pub const SMALL_OF_BIG: &str = "small window of a big grid";
const BAD: &str = "bad window (left > right, top > bottom, right past, bottom past, more than one)";
const BAD_BY_ONE: &str = "bad window by one (left > right, top > bottom, right past, bottom past)";
const EXTREME: &str = "end at u32's greatest (left, right, top, bottom)";
pub const WRAPPED: &str = "bad window with results as long as its area wraps to";

/// The least of each sort in a full run.
pub fn floors() -> Vec<Floor> {
    [accepted_floors(200), floors_of(&[(SMALL_OF_BIG, 1, 200), (WRAPPED, 1, 100)]), bad_floors()]
        .concat()
}

/// The least of each sort of accepted window, on any grid.
pub fn accepted_floors(least: u64) -> Vec<Floor> {
    let sides = [CORNER, EDGE, CUT, ON_CUT, INSIDE_CUT, OUTSIDE_CUT];
    let by_side = sides.map(|name| (name, 4, least));
    [floors_of(&by_side), floors_of(&[(SHAPE, 5, least)])].concat()
}

/// The least of each way for a window to be bad.
pub fn bad_floors() -> Vec<Floor> {
    let alone = floors_of(&[(BAD, 4, 40), (BAD_BY_ONE, 4, 30), (EXTREME, 4, 30)]);
    [alone, vec![Floor::times(BAD, 4, 30)]].concat()
}

/// Floors by name, how many numbers it has, and the least of each.
pub fn floors_of(sorts: &[(&'static str, u32, u64)]) -> Vec<Floor> {
    let numbered = |(name, numbers, least): &(&'static str, u32, u64)| {
        let (name, least) = (*name, *least);
        (0..*numbers).map(move |number| Floor::times(name, number, least))
    };
    sorts.iter().flat_map(numbered).collect()
}

/// Floors of one name, by the least of each number.
pub fn floors_in_order(name: &'static str, least: &[u64]) -> Vec<Floor> {
    (0..).zip(least).map(|(number, least)| Floor::times(name, number, *least)).collect()
}

/// The numbers at which something holds, in order.
pub fn named(name: &'static str, holds: impl IntoIterator<Item = bool>) -> Vec<Sort> {
    let numbered = (0..).zip(holds).filter(|(_, holds)| *holds);
    numbered.map(|(number, _)| (name, number)).collect()
}

/// The sorts of an accepted query, with the verdicts of the whole grid.
pub fn of_accepted(call: &Call, window: &Window, verdict: &[u8]) -> Vec<Sort> {
    let cut = widened(call, window, reach(call));
    [
        lying(call, window),
        shaped(call, window),
        cut_off(call, &cut),
        by_the_cut(call, &cut, verdict),
    ]
    .concat()
    .into_iter()
    .chain(is_small_of_big(call, window, &cut).then_some((SMALL_OF_BIG, 0)))
    .collect()
}

/// Which sides of the grid a part of it lies on: left, right, top, bottom.
pub fn sides(call: &Call, part: &Window) -> [bool; 4] {
    [part.left == 0, part.right == call.nx - 1, part.top == 0, part.bottom == call.ny - 1]
}

fn lying(call: &Call, window: &Window) -> Vec<Sort> {
    let [left, right, top, bottom] = sides(call, window);
    let corners = [left && top, right && top, left && bottom, right && bottom];
    let alone = sides(call, window).iter().filter(|lies| **lies).count() == 1;
    let edges = sides(call, window).map(|lies| lies && alone);
    let whole = corners.iter().all(|lies| *lies);
    [named(CORNER, corners.map(|lies| lies && !whole)), named(EDGE, edges)].concat()
}

fn shaped(call: &Call, window: &Window) -> Vec<Sort> {
    let whole = sides(call, window).iter().all(|lies| *lies);
    let inner = !sides(call, window).iter().any(|lies| *lies);
    let (column, row) = (window.left == window.right, window.top == window.bottom);
    named(SHAPE, [whole, inner, column && !row, row && !column, column && row])
}

fn cut_off(call: &Call, cut: &Window) -> Vec<Sort> {
    named(CUT, sides(call, cut).map(|lies| !lies))
}

/// Stations on the grid that take part in the whole analysis and stand at an
/// edge of the cut which is not the grid's border, beside the cut's own points.
/// Those one unit outside must not become posts of the cut.
fn by_the_cut(call: &Call, cut: &Window, verdict: &[u8]) -> Vec<Sort> {
    let off = sides(call, cut).map(|lies| !lies);
    let on_grid = |row: &usize| call.shape().holds(call.x[*row], call.y[*row]);
    let takes_part = |row: &usize| !(1..=5).contains(&verdict[*row]);
    let mut found = [[false; 4]; 3];
    for row in (0..verdict.len()).filter(takes_part).filter(on_grid) {
        let outside = outside(cut, call.x[row], call.y[row]);
        for side in (0..4).filter(|side| off[*side]) {
            let beside = (0..4).all(|other| other / 2 == side / 2 || outside[other] <= 0);
            for (found, distance) in found.iter_mut().zip([0, -1, 1]) {
                found[side] |= beside && outside[side] == distance;
            }
        }
    }
    let names = [ON_CUT, INSIDE_CUT, OUTSIDE_CUT];
    names.into_iter().zip(found).flat_map(|(name, found)| named(name, found)).collect()
}

/// How many units a place is outside a part, by side.
fn outside(part: &Window, x: i32, y: i32) -> [i32; 4] {
    let at = |end: u32| 64 * end as i32;
    [at(part.left) - x, x - at(part.right), at(part.top) - y, y - at(part.bottom)]
}

fn is_small_of_big(call: &Call, window: &Window, cut: &Window) -> bool {
    let big = call.nx >= 48 && call.ny >= 48 && call.x.len() >= 300;
    big && window.area() <= 64 && cut.area() <= call.first_guess.len() / 2
}

/// The sorts of a query with refusal 2.
pub fn of_bad(call: &Call, window: &Window) -> Vec<Sort> {
    let wrapped = window.wrapped_area() as usize;
    let fits = wrapped == call.grid_len && wrapped == call.support_len;
    [of_ends(call, window), named(WRAPPED, [fits])].concat()
}

/// What is wrong with the ends of a bad window.
pub fn of_ends(call: &Call, window: &Window) -> Vec<Sort> {
    let Window { left, right, top, bottom } = *window;
    let faults = [left > right, top > bottom, right >= call.nx, bottom >= call.ny];
    let several = faults.iter().filter(|fault| **fault).count() > 1;
    let by_one = [
        left.checked_sub(1) == Some(right),
        top.checked_sub(1) == Some(bottom),
        right == call.nx,
        bottom == call.ny,
    ];
    let alone = |fault: bool| fault && !several;
    let [a, b, c, d] = faults.map(alone);
    [
        named(BAD, [a, b, c, d, several]),
        named(BAD_BY_ONE, by_one.map(alone)),
        named(EXTREME, [left, right, top, bottom].map(|end| end == u32::MAX)),
    ]
    .concat()
}
