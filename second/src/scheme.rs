//! The whole analysis: refusals, first verdicts, then scan after scan.

use crate::call::{Analysis, Call, Refusal};
use crate::refusals::check_analysis;
use crate::scan::{correct, judge, smoothed};
use crate::units::{BORDER, WEIGHT_SCALE};
use crate::verdicts::before_first_scan;

pub fn analyse(call: &Call) -> Result<Analysis, Refusal> {
    check_analysis(call)?;
    Ok(run(call))
}

/// The scheme itself, on a request that no test of the table refuses.
pub fn run(call: &Call) -> Analysis {
    run_with(call, BORDER, WEIGHT_SCALE)
}

/// The same with another border; with 0 there are no posts.
pub fn run_within(call: &Call, border: i64) -> Analysis {
    run_with(call, border, WEIGHT_SCALE)
}

/// The same with weights on another scale.
pub fn run_in(call: &Call, scale: i64) -> Analysis {
    run_with(call, BORDER, scale)
}

fn run_with(call: &Call, border: i64, scale: i64) -> Analysis {
    let mut grid = call.first_guess.clone();
    let mut support = vec![0; grid.len()];
    let mut verdict = before_first_scan(call, border);
    for scan in 0..call.scans as usize {
        let accepted = judge(call, &grid, scan, &mut verdict);
        correct(call, scan, scale, &accepted, &mut grid, &mut support);
        if call.smooth {
            grid = smoothed(call.shape(), &grid);
        }
    }
    Analysis { grid, support, verdict }
}
