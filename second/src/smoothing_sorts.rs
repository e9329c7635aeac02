//! The sorts of requests that smooth which a run must not lose, by name and
//! number. A name lists in brackets what its numbers, from 0, stand for.

use crate::call::{Call, Window};
use crate::sorts::{floors_in_order, named, sides, Sort};
use crate::tally::Floor;
use crate::window::{reach, widened};

const GRID: &str =
    "accepted request that smooths a grid of (2 columns, 2 rows, 3 columns, 3 rows, 3 by 3)";
const CUT: &str =
    "cut that is smoothed with its edge inside the grid (left, right, top, bottom, on all sides)";
const LEAST_CUT: &str = "cut that is smoothed and smaller than the grid (3 columns, 3 rows)";

/// The least of each sort in a full run of analyses or texts.
pub fn floors() -> Vec<Floor> {
    floors_in_order(GRID, &[350, 350, 250, 250, 25])
}

/// The least in a full run of windows or screens, with what only these have. Of
/// the least cuts, screens have more, since they have more windows.
pub fn window_floors(least_cut: u64) -> Vec<Floor> {
    [
        floors_in_order(GRID, &[220, 220, 150, 150, 15]),
        floors_in_order(CUT, &[700, 700, 700, 700, 60]),
        floors_in_order(LEAST_CUT, &[least_cut; 2]),
    ]
    .concat()
}

/// The sorts of an accepted request.
pub fn of_accepted(call: &Call) -> Vec<Sort> {
    let (nx, ny) = (call.nx, call.ny);
    let grids = [nx == 2, ny == 2, nx == 3, ny == 3, (nx, ny) == (3, 3)];
    named(GRID, grids.map(|holds| holds && call.smooth))
}

/// The sorts of an accepted window query: the border of its cut keeps its values
/// there, and the whole grid's points at the same places do not.
pub fn of_window(call: &Call, window: &Window) -> Vec<Sort> {
    let cut = widened(call, window, reach(call));
    let [left, right, top, bottom] = sides(call, &cut).map(|lies| !lies && call.smooth);
    let inside = named(CUT, [left, right, top, bottom, left && right && top && bottom]);
    let (columns, rows) = (cut.right - cut.left + 1, cut.bottom - cut.top + 1);
    let (narrower, lower) = (left || right, top || bottom);
    [inside, named(LEAST_CUT, [narrower && columns == 3, lower && rows == 3])].concat()
}
