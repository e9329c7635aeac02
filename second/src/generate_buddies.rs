//! The generator of buddy checks: whether a request has one, stations in company that
//! tell who is a neighbour and who is set aside, and limits that set aside late.
//! `generate_company` says who stands in a company, and `generate_links` makes windows
//! hang on neighbours far out.

use crate::buddy::Neighbours;
use crate::call::{Buddy, Call, Window};
use crate::generate_company::{forsake_in_turn, gather};
use crate::generate_rules::lengthen;
use crate::rng::Rng;
use crate::scan::{correct, smoothed, survivors};
use crate::units::{BORDER, BUDDY_LIMIT, BUDDY_RADIUS, LEAST_NEIGHBOURS, WEIGHT_SCALE};
use crate::verdicts::before_first_scan;

/// Radii of checks, most of them short against the grids.
const RADII: [i32; 12] = [1, 16, 40, 63, 64, 65, 100, 100, 128, 128, 200, 512];
/// What may stand in a check that is off, good or bad: neither number is read.
const UNREAD_RADII: [i32; 8] = [0, 1, 64, 512, 513, -1, i32::MIN, i32::MAX];
const UNREAD_LIMITS: [i32; 7] = [0, 50, 2_000_000, 2_000_001, -1, i32::MIN, i32::MAX];

/// The check of a request whose stations deviate by about so much: left out in two
/// fifths, given and off in a fifth, and on in the rest.
pub fn any_buddy(rng: &mut Rng, spread: i32) -> Option<Buddy> {
    let any = rng.between(*BUDDY_RADIUS.start(), *BUDDY_RADIUS.end());
    let radius = if rng.one_in(4) { any } else { rng.pick(&RADII) };
    let limit = rng.between(0, spread);
    let limit = rng.pick(&[limit, spread / 4, spread / 2, spread, 2 * spread, 2_000_000]);
    match rng.below(20) {
        0..=7 => None,
        8..=11 => Some(unread(rng)),
        _ => Some(Buddy::on(radius, limit)),
    }
}

fn unread(rng: &mut Rng) -> Buddy {
    Buddy { on: false, radius: rng.pick(&UNREAD_RADII), limit: rng.pick(&UNREAD_LIMITS) }
}

/// Makes the radius of a check that is on at most so long. A cut is wider by it in every
/// scan.
pub fn near_at_hand(call: &mut Call, longest: i32) {
    if let Some(buddy) = call.buddy.as_mut().filter(|buddy| buddy.on) {
        buddy.radius = buddy.radius.min(longest);
    }
}

/// Gives a request with a check stations in company round a part of the grid, or a limit
/// that sets aside in a scan of its own. Whatever else is drawn for the request stays, but
/// for stations in the company's way.
pub fn befriend(rng: &Rng, call: &mut Call, part: &Window) {
    // The sources before it are those of the rims, the points and the corners.
    let rng = &mut rng.beside().beside().beside().beside();
    if call.check().is_none() || call.nx < 2 || call.ny < 2 {
        return;
    }
    match rng.below(17) {
        0..=8 => gather(rng, call, part),
        9..=12 => forsake_in_turn(rng, call, part),
        13..=15 => tune(rng, call, false),
        _ if !rng.one_in(4) => tune(rng, call, true),
        _ => (),
    }
}

/// Sets L so that the first whom the check sets aside goes in a scan that is drawn: later
/// ones too, as far as somebody is farther from their neighbours there than anybody was
/// before. The least of such limits lets somebody pass before it exactly. Late, it is the
/// last such scan of a long plan: there the field tells, and not the first guess.
fn tune(rng: &mut Rng, call: &mut Call, late: bool) {
    if rng.one_in(3) || late {
        lengthen(call, rng.pick(&[4, 5, 6]));
    }
    let mut records = Vec::new();
    let mut so_far = 0;
    for (scan, least) in least_limits(call).into_iter().enumerate() {
        if least > so_far {
            records.push((scan, so_far, least));
            so_far = least;
        }
    }
    if records.is_empty() {
        return;
    }
    let (one, another) = (rng.below(records.len()), rng.below(records.len()));
    // Never the first, if there are others.
    let drawn = one.max(another);
    let (_, least, past) = records[if late || drawn == 0 { records.len() - 1 } else { drawn }];
    let most = past - 1;
    let any = least + i64::from(rng.up_to((most - least) as u32));
    set_limit(call, rng.pick(&[least, most, most, any]));
}

pub fn set_limit(call: &mut Call, limit: i64) {
    let greatest = i64::from(*BUDDY_LIMIT.end());
    if let Some(buddy) = &mut call.buddy {
        buddy.limit = limit.clamp(0, greatest) as i32;
    }
}

/// By scan, the least L with which nobody would be set aside there, if nobody was before.
fn least_limits(call: &Call) -> Vec<i64> {
    let radius = call.check().map_or(0, |check| check.radius);
    let (mut grid, mut verdict) = (call.first_guess.clone(), before_first_scan(call, BORDER));
    let mut support = vec![0; grid.len()];
    let mut least = Vec::new();
    for scan in 0..call.scans as usize {
        let passed = survivors(call, &grid, scan, &mut verdict);
        let limits = passed.iter().filter_map(|station| {
            let neighbours = Neighbours::of(station, &passed, radius);
            let apart = neighbours.apart(station.difference);
            let count = neighbours.count as u64;
            (neighbours.count >= LEAST_NEIGHBOURS)
                .then(|| apart.unsigned_abs().div_ceil(count) as i64)
        });
        least.push(limits.max().unwrap_or(0));
        correct(call, scan, WEIGHT_SCALE, &passed, &mut grid, &mut support);
        if call.smooth {
            grid = smoothed(call.shape(), &grid);
        }
    }
    least
}
