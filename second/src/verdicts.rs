//! Verdicts before the first scan: the first that fits each row.

use crate::call::Call;
use crate::units::{MISSING, NO_END};

pub const ACCEPTED: u8 = 0;
pub const MISSING_VALUE: u8 = 1;
pub const OUT_OF_SERVICE: u8 = 2;
pub const AFTER_TIME: u8 = 3;
pub const TOO_OLD: u8 = 4;
pub const OFF_GRID: u8 = 5;
/// A station rejected in scan k, counted from 1, gets this plus k.
pub const REJECTED: u8 = 10;
/// A station that its neighbours set aside in scan k gets this plus k.
pub const SET_ASIDE: u8 = 20;

/// The scan, counted from 0, that rejected a station or set it aside.
pub fn ended_in(verdict: u8) -> Option<usize> {
    let by = if verdict > SET_ASIDE { SET_ASIDE } else { REJECTED };
    verdict.checked_sub(by + 1).map(usize::from)
}

/// Whether a station takes part, at least in the first scan until that judges it.
pub fn takes_part(verdict: u8) -> bool {
    verdict == ACCEPTED || ended_in(verdict).is_some()
}

/// A station off the grid by more than the border on either axis takes no
/// part.
pub fn before_first_scan(call: &Call, border: i64) -> Vec<u8> {
    (0..call.x.len()).map(|row| first_that_fits(call, border, row)).collect()
}

fn first_that_fits(call: &Call, border: i64, row: usize) -> u8 {
    let (observed, time) = (call.observed[row], call.time);
    let serves = |minute| in_service(call.from[row], call.until[row], minute);
    if call.value[row] == MISSING {
        MISSING_VALUE
    } else if !serves(observed) || !serves(time) {
        OUT_OF_SERVICE
    } else if observed > time {
        AFTER_TIME
    } else if time - observed > call.age {
        TOO_OLD
    } else if !call.shape().holds_within(call.x[row], call.y[row], border) {
        OFF_GRID
    } else {
        ACCEPTED
    }
}

/// With no end the upper test holds, even at the last minute of all.
fn in_service(from: u32, until: u32, minute: u32) -> bool {
    from <= minute && (until == NO_END || minute < until)
}
