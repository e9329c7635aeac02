//! The refusal table, in its order. Every test names its first bad place.

use crate::call::{Call, Refusal, Window, Winds};
use crate::field::Shape;
use crate::units::{
    BUDDY_LIMIT, BUDDY_RADIUS, LIMIT, MISSING, MODES, MOST_STATIONS, OF_THE_CHECK, POSITION,
    RADIUS, RULES, SCANS, SIDE, VALUE, WIND,
};

pub type Checked = Result<(), Refusal>;

/// Refusals of the whole analysis: 1, 3, 4, 5, 6, 7, 8.
pub fn check_analysis(call: &Call) -> Checked {
    let points = check_shape(call.nx, call.ny, call.first_guess.len())?.points();
    check_result(call.grid_len, points)?;
    check_result(call.support_len, points)?;
    check_result(call.verdict_len, call.x.len())?;
    check_request(call)
}

/// Refusals of the window query: the same, with 2 between 1 and 3. It has no
/// verdicts, so their length is not looked at.
pub fn check_window(call: &Call, window: &Window) -> Checked {
    check_shape(call.nx, call.ny, call.first_guess.len())?;
    demand(is_on_grid(call, window), 2, 0)?;
    check_result(call.grid_len, window.area())?;
    check_result(call.support_len, window.area())?;
    check_request(call)
}

/// Refusal 1. The sides are tested before their product is formed.
pub fn check_shape(nx: u32, ny: u32, points: usize) -> Result<Shape, Refusal> {
    let shape = Shape { nx: nx as usize, ny: ny as usize };
    if SIDE.contains(&nx) && SIDE.contains(&ny) && shape.points() == points {
        Ok(shape)
    } else {
        Err(Refusal::new(1, 0))
    }
}

/// What refusal 2 asks of a window. Any u32 may come, so no end is raised
/// before it is compared.
pub fn is_on_grid(call: &Call, window: &Window) -> bool {
    let in_order = window.left <= window.right && window.top <= window.bottom;
    in_order && window.right < call.nx && window.bottom < call.ny
}

/// Refusal 3, of one result.
pub fn check_result(length: usize, asked: usize) -> Checked {
    demand(length == asked, 3, 0)
}

/// Refusals 4 to 8, which analysis, window query and screen share.
pub fn check_request(call: &Call) -> Checked {
    check_columns(call)?;
    check_scan_count(call)?;
    demand(MODES.contains(&call.mode), 5, 0)?;
    demand(RULES.contains(&call.rule()), 5, 0)?;
    check_plan(call)?;
    check_buddy(call)?;
    check_first_guess(call)?;
    check_stations(call)
}

fn check_columns(call: &Call) -> Checked {
    let rows = call.x.len();
    let others =
        [call.y.len(), call.value.len(), call.observed.len(), call.from.len(), call.until.len()];
    let winds = call.winds.iter().flat_map(Winds::columns).map(Vec::len);
    let equal = winds.chain(others).all(|length| length == rows);
    demand(equal && rows <= MOST_STATIONS, 4, 0)
}

fn check_scan_count(call: &Call) -> Checked {
    let scans = call.scans as usize;
    let long_enough = call.radius.len() >= scans && call.limit.len() >= scans;
    demand(SCANS.contains(&call.scans) && long_enough, 5, 0)
}

fn check_plan(call: &Call) -> Checked {
    for scan in 0..call.scans as usize {
        let radius = call.radius[scan];
        let rises = scan > 0 && radius > call.radius[scan - 1];
        let good = RADIUS.contains(&radius) && !rises && LIMIT.contains(&call.limit[scan]);
        demand(good, 6, scan)?;
    }
    Ok(())
}

/// "B or L out of range is 6 with place 6, after the scans", and where the check is off
/// "neither is read".
fn check_buddy(call: &Call) -> Checked {
    let good = call.check().is_none_or(|check| {
        BUDDY_RADIUS.contains(&check.radius) && BUDDY_LIMIT.contains(&check.limit)
    });
    demand(good, 6, OF_THE_CHECK)
}

fn check_first_guess(call: &Call) -> Checked {
    for (point, value) in call.first_guess.iter().enumerate() {
        demand(VALUE.contains(value), 7, point)?;
    }
    Ok(())
}

/// All tests of a row come before the next row.
fn check_stations(call: &Call) -> Checked {
    for row in 0..call.x.len() {
        let value = call.value[row];
        let good = (value == MISSING || VALUE.contains(&value))
            && POSITION.contains(&call.x[row])
            && POSITION.contains(&call.y[row])
            && call.from[row] < call.until[row]
            && call.winds.as_ref().is_none_or(|winds| is_wind(winds.u[row], winds.v[row]));
        demand(good, 8, row)?;
    }
    Ok(())
}

/// "each -100..100 or both the missing mark", in both modes.
pub fn is_wind(u: i32, v: i32) -> bool {
    (u, v) == (MISSING, MISSING) || WIND.contains(&u) && WIND.contains(&v)
}

/// Places are at most 4,095: a point of the largest grid.
pub fn demand(good: bool, number: u32, place: usize) -> Checked {
    if good {
        Ok(())
    } else {
        Err(Refusal::new(number, place as u32))
    }
}
