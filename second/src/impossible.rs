//! What no answer may hold, whoever gives it. The harness looks for it in what
//! the second program says, which a subject has to equal.

use crate::call::{Analysis, Call, Window};
use crate::post_sorts::is_post;
use crate::scan::{weight, weight_at};
use crate::scheme::run;
use crate::units::{EQUATIONS, ROUND, WEIGHT_SCALE};
use crate::verdicts::{ended_in, ACCEPTED, REJECTED, SET_ASIDE};
use crate::weight_sorts::{each_point, is_small, Around};

/// A post's D is the same in every scan. So a scan that rejects it has a limit
/// below those of all scans before, which let it pass.
pub fn late_rejection(call: &Call, verdict: &[u8]) -> Option<String> {
    let by_limit = REJECTED + 1..=SET_ASIDE;
    let rejected =
        |row: &usize| by_limit.contains(&verdict[*row]) && is_post(call, *row, verdict[*row]);
    let rows = (0..verdict.len()).filter(rejected);
    let mut scans = rows.map(|row| (row, usize::from(verdict[row] - REJECTED) - 1));
    let (row, scan) = scans.find(|(_, scan)| {
        let limits = &call.limit[..=*scan];
        limits[..*scan].iter().any(|before| *before <= limits[*scan])
    })?;
    let scan = scan + 1;
    Some(format!(
        "the post in row {row} is rejected in scan {scan}, whose limit is as wide as one before"
    ))
}

/// In mode 0 no wind changes anything: without winds the answer is the same. A
/// request with very many stations and points is not run once more.
pub fn moved_by_wind(call: &Call, analysis: &Analysis) -> Option<String> {
    if call.mode != ROUND || call.winds.is_none() || !is_small(call) {
        return None;
    }
    let still = run(&Call { winds: None, ..call.clone() });
    (still != *analysis).then(|| "in mode 0 the winds change the answer".to_string())
}

/// A stretched weight is at least the round one, and at most the weight at the
/// station itself. Where there are very many points, a sample is looked at.
pub fn wrong_weight(call: &Call, verdict: &[u8]) -> Option<String> {
    let whole = Window::new(0, call.nx - 1, 0, call.ny - 1);
    let mut wrong = None;
    if call.mode != ROUND && call.winds.is_some() {
        each_point(call, &whole, verdict, |Around { r2, x, y, near, .. }| {
            for station in near.iter().filter(|station| station.wind.is_some()) {
                let (dx, dy) = station.offset(x, y);
                let round = weight(r2, dx * dx + dy * dy);
                let along = weight_at(WEIGHT_SCALE, r2, (dx, dy), station.wind);
                wrong = wrong.take().or_else(|| out_of_bounds(round, along));
            }
        });
    }
    wrong
}

/// What is said of a stretched weight beside the round one.
pub fn out_of_bounds(round: i64, along: i64) -> Option<String> {
    let good = (round..=WEIGHT_SCALE).contains(&along);
    (!good).then(|| format!("a weight is {along} along the wind, and {round} without it"))
}

/// From the same field both rules judge alike and support alike: the first scan does
/// under either. A request with very many stations and points is not run once more.
pub fn moved_by_rule(call: &Call, analysis: &Analysis) -> Option<String> {
    if call.rule() == EQUATIONS || !is_small(call) {
        return None;
    }
    let other = run(&Call { rule: Some(EQUATIONS), ..call.clone() });
    let first = |of: &Analysis| {
        let support: Vec<u8> = of.support.iter().map(|byte| byte & 1).collect();
        let at_once = |verdict: &u8| match ended_in(*verdict) {
            Some(1..) => ACCEPTED,
            _ => *verdict,
        };
        (support, of.verdict.iter().map(at_once).collect::<Vec<u8>>())
    };
    let unlike = first(analysis) != first(&other);
    unlike.then(|| "in the first scan rule 1 has other supports or verdicts".to_string())
}

/// Nobody is set aside where there is no check; and one that is off is as good as none,
/// whatever its numbers. The E test comes first, so that in the first scan the limit
/// rejects the same stations as without the check. A request with very many stations and
/// points is not run once more.
pub fn moved_by_check(call: &Call, analysis: &Analysis) -> Option<String> {
    let aside = analysis.verdict.iter().any(|verdict| *verdict > SET_ASIDE);
    if call.check().is_none() && aside {
        return Some("a station is set aside without a check".to_string());
    }
    if call.buddy.is_none() || !is_small(call) {
        return None;
    }
    let bare = run(&Call { buddy: None, ..call.clone() });
    let rejected = |of: &Analysis| {
        let rows = of.verdict.iter().map(|verdict| *verdict == REJECTED + 1);
        rows.collect::<Vec<bool>>()
    };
    let (off, unlike) = (call.check().is_none(), rejected(&bare) != rejected(analysis));
    let off = (off && bare != *analysis).then_some("a check that is off changes the answer");
    let told = off.or(unlike.then_some("the check changes whom the first limit rejects"));
    told.map(str::to_string)
}
