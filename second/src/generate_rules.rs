//! The generator of rules: which one a request asks for, nights on which most
//! points hear one station alone, and rows round a point that tell whether a
//! station counts there.

use crate::call::{Call, Window};
use crate::damage::set_rows;
use crate::generate::{guess_at, push_station};
use crate::generate_rims::{offset, placed, radius_with, Rim};
use crate::rng::Rng;
use crate::scan::{difference, weight};
use crate::scheme::run;
use crate::units::{
    BORDER, EQUATIONS, HUNDREDTHS, LIMIT, LISTINGS, MISSING, MOST_STATIONS, NO_END, RADIUS, VALUE,
    WEIGHT_SCALE,
};
use crate::weight_sorts::is_small;

/// The rule of a request: left out in a third, and rule 2 in nearly half.
pub fn any_rule(rng: &mut Rng) -> Option<u32> {
    match rng.below(20) {
        0..=6 => None,
        7..=10 => Some(EQUATIONS),
        _ => Some(LISTINGS),
    }
}

/// The most rows of a request that may be thinned out, and of one that was.
const MOST_DENSE: usize = 20;
const MOST_SPARSE: usize = 5;
/// Radii of sparse nights. Up to 70 every station inside has a weight.
const SHORT: [i32; 9] = [30, 64, 70, 71, 96, 100, 130, 160, 200];

/// Leaves few stations and short radii to a third of the small requests under rule
/// 2: sparse nights, on which most points that hear a station hear one alone.
pub fn thin_out(rng: &mut Rng, call: &mut Call) {
    let rows = call.x.len();
    if call.rule() != LISTINGS || rows > MOST_DENSE || !rng.one_in(3) {
        return;
    }
    let (kept, longest) = (1 + rng.below(MOST_SPARSE), rng.pick(&SHORT));
    set_rows(call, rows.min(kept));
    call.radius.iter_mut().for_each(|radius| *radius = (*radius).min(longest));
}

/// What stands round a point beside the one accepted station inside.
#[derive(Clone, Copy)]
enum Beside {
    /// Nothing; the station is anywhere inside, at the point, or beyond the border.
    Nothing,
    AtThePoint,
    LonePost,
    /// Nothing, and weight·D is past 32 bits.
    Huge,
    /// Nothing, and weight·D is an exact half of the scale more than a multiple.
    Tie,
    /// So many stations inside without a weight; and one of these alone.
    Silent(usize),
    SilentAlone,
    /// One at a squared distance of R².
    AtTheRim,
    /// One that takes no part, with the verdict.
    Dead(u8),
    /// One that a scan rejects: this one, or one before it.
    Rejected,
    RejectedBefore,
}

const ALL: [Beside; 46] = [
    Beside::Nothing,
    Beside::AtThePoint,
    Beside::LonePost,
    Beside::Huge,
    Beside::Huge,
    Beside::Tie,
    Beside::Tie,
    Beside::Tie,
    Beside::Tie,
    Beside::Tie,
    Beside::Tie,
    Beside::Tie,
    Beside::Tie,
    Beside::Tie,
    Beside::Tie,
    Beside::Tie,
    Beside::Silent(1),
    Beside::Silent(1),
    Beside::Silent(1),
    Beside::Silent(1),
    Beside::Silent(1),
    Beside::Silent(1),
    Beside::Silent(2),
    Beside::Silent(2),
    Beside::SilentAlone,
    Beside::SilentAlone,
    Beside::SilentAlone,
    Beside::AtTheRim,
    Beside::Dead(1),
    Beside::Dead(2),
    Beside::Dead(3),
    Beside::Dead(4),
    Beside::Dead(5),
    Beside::Dead(5),
    Beside::Dead(5),
    Beside::Dead(5),
    Beside::Dead(5),
    Beside::Dead(5),
    Beside::Dead(5),
    Beside::Rejected,
    Beside::Rejected,
    Beside::RejectedBefore,
    Beside::RejectedBefore,
    Beside::RejectedBefore,
    Beside::RejectedBefore,
    Beside::RejectedBefore,
];

/// Limits that are raised to this let most lone stations pass; and to this, any whose
/// weight·D is to be an exact half.
const TIGHT: i32 = 300;
const FOR_A_TIE: i32 = WEIGHT_SCALE as i32;
/// Radii with stations inside that have no weight.
const WITH_SILENT: [i32; 6] = [71, 75, 90, 99, 100, 128];
/// The scans from the third on, counted from 0.
const LATE: [usize; 4] = [2, 3, 4, 5];
/// So many rows make a request a big one.
const MANY: usize = 300;
/// Past the border of posts, and inside this radius.
const FAR: i32 = 320;

/// Gives most of the requests under rule 2 a point of a part of the grid that hears
/// one accepted station alone in a scan, and something beside it that counts, or
/// does not. Whatever else is drawn for the request stays, but for stations that
/// would be heard there too.
pub fn add_round_a_point(rng: &Rng, call: &mut Call, part: &Window) {
    // The source beside this one is that of the rims.
    let rng = &mut rng.beside().beside();
    let room = MOST_STATIONS.saturating_sub(call.x.len());
    let is_grid = call.nx >= 2 && call.ny >= 2;
    if call.rule() != LISTINGS || !is_grid || room < 4 {
        return;
    }
    let beside = if !rng.one_in(3) {
        rng.pick(&ALL)
    } else if is_small(call) && rng.one_in(3) {
        return add_rejected_late(rng, call, part);
    } else if rng.one_in(6) {
        // Few have more than one without a weight by chance.
        Beside::Silent(2)
    } else {
        return;
    };
    if matches!(beside, Beside::Dead(5)) && call.x.len() >= MANY {
        // It asks for few others, and such requests are to stay big.
        return;
    }
    if matches!(beside, Beside::RejectedBefore) && rng.one_in(2) {
        lengthen(call, rng.pick(&[5, 6, 6]));
    }
    let scan = rng.up_to(call.scans - 1) as usize;
    let scan = match beside {
        Beside::Tie => 0,
        Beside::RejectedBefore => call.scans as usize - 1,
        _ => scan,
    };
    fit_radius(rng, call, scan, beside);
    let radius = call.radius[scan];
    let Some(point) = quiet_point(rng, call, part, radius, beside) else {
        return;
    };
    let limits = &mut call.limit[..=scan];
    let least = match beside {
        Beside::Tie => FOR_A_TIE,
        Beside::Huge => *LIMIT.end(),
        Beside::Silent(_) => TIGHT,
        _ => rng.pick(&[0, TIGHT]),
    };
    limits.iter_mut().for_each(|limit| *limit = (*limit).max(least));
    let most = limits.iter().min().map_or(0, |limit| (*limit).clamp(0, 60_000));
    let lone = match beside {
        Beside::AtThePoint => Some(point),
        Beside::LonePost => {
            beyond(rng, call, point, radius, 1).or_else(|| within(rng, call, point, radius))
        }
        Beside::SilentAlone => on_rim(rng, call, point, radius, Rim::Silent),
        _ => within(rng, call, point, radius),
    };
    let Some(lone) = lone else {
        return;
    };
    let d = match beside {
        Beside::Tie => tie(rng, point, lone, radius, most),
        Beside::Huge => {
            let size = rng.between(*VALUE.end() / 2, *VALUE.end());
            if guess_at(call, lone.0, lone.1) > 0 {
                -size
            } else {
                size
            }
        }
        _ => rng.between(-most, most),
    };
    push(call, lone, d);
    put_beside(rng, call, point, radius, scan, beside);
}

/// Gives a request two stations inside at a point, of which a scan from the third on
/// rejects one. Few do by chance.
fn add_rejected_late(rng: &mut Rng, call: &mut Call, part: &Window) {
    let scan = rng.pick(&LATE);
    lengthen(call, scan + 1);
    let radius = call.radius[scan];
    let Some(point) = quiet_point(rng, call, part, radius, Beside::RejectedBefore) else {
        return;
    };
    let (one, post) = (within(rng, call, point, radius), beyond(rng, call, point, radius, 1));
    let another = post.or_else(|| within(rng, call, point, radius));
    let (Some(one), Some(another)) = (one, another) else {
        return;
    };
    let size = rng.pick(&[TIGHT, 10 * TIGHT, 100 * TIGHT]);
    for place in [one, another] {
        let d = rng.between(-size, size);
        push(call, place, d);
    }
    // What is left of a D may grow before it falls.
    call.limit[..scan].iter_mut().for_each(|limit| *limit = (*limit).max(2 * size));
    reject_one_of_two(rng, call, scan);
}

/// Sets the limit of a scan between what the last two rows differ by there.
fn reject_one_of_two(rng: &mut Rng, call: &mut Call, scan: usize) {
    let before = run(&Call { scans: scan as u32, ..call.clone() });
    let rows = call.x.len();
    let size = |row| difference(call, &before.grid, row).abs().min((*LIMIT.end()).into()) as i32;
    let (one, another) = (size(rows - 2), size(rows - 1));
    if one != another {
        call.limit[scan] = rng.between(one.min(another), one.max(another) - 1);
    }
}

/// At least so many scans, the last of them like the last there was.
pub fn lengthen(call: &mut Call, all: usize) {
    let scans = call.scans as usize;
    if scans < all {
        let (radius, limit) = (call.radius[scans - 1], call.limit[scans - 1]);
        call.radius.truncate(scans);
        call.limit.truncate(scans);
        call.radius.resize(all, radius);
        call.limit.resize(all, limit);
        call.scans = all as u32;
    }
}

/// A little shorter a radius may have the rim that is asked for; and a station past
/// the border of posts asks for a long one, and for few others.
fn fit_radius(rng: &mut Rng, call: &mut Call, scan: usize, beside: Beside) {
    let rim = match beside {
        Beside::Silent(_) | Beside::SilentAlone => {
            let least = rng.pick(&WITH_SILENT);
            call.radius[..=scan].iter_mut().for_each(|old| *old = (*old).max(least));
            Rim::Silent
        }
        Beside::AtTheRim => Rim::By(0),
        Beside::Dead(5) => {
            let radius = FAR.min(*RADIUS.end());
            call.radius[..=scan].iter_mut().for_each(|old| *old = (*old).max(radius));
            set_rows(call, call.x.len().min(2));
            return;
        }
        _ => return,
    };
    if let Some(radius) = radius_with(rng, rim, call.radius[scan]) {
        let radii = call.radius[scan..call.scans as usize].iter_mut();
        radii.for_each(|later| *later = (*later).min(radius));
    }
}

/// Whether a row is inside the radius round a point.
fn is_inside(call: &Call, row: usize, (x, y): (i32, i32), radius: i32) -> bool {
    let (dx, dy) = (i64::from(call.x[row] - x), i64::from(call.y[row] - y));
    dx * dx + dy * dy < i64::from(radius).pow(2)
}

/// A point of a part of the grid that no row is inside the radius of; of a few, or
/// now and then the rows that are inside go. On the border for what stands beyond it,
/// if the part has a point there.
fn quiet_point(
    rng: &mut Rng,
    call: &mut Call,
    part: &Window,
    radius: i32,
    beside: Beside,
) -> Option<(i32, i32)> {
    let needs_quiet = matches!(beside, Beside::Tie | Beside::Silent(_) | Beside::Dead(5));
    let outside = matches!(beside, Beside::LonePost | Beside::Dead(5) | Beside::RejectedBefore);
    let ways = [
        (part.left == 0, Window { right: part.left, ..*part }),
        (part.right == call.nx - 1, Window { left: part.right, ..*part }),
        (part.top == 0, Window { bottom: part.top, ..*part }),
        (part.bottom == call.ny - 1, Window { top: part.bottom, ..*part }),
    ];
    let open: Vec<Window> = ways.into_iter().filter(|way| way.0).map(|way| way.1).collect();
    let part = if outside && !open.is_empty() { rng.pick(&open) } else { *part };
    let mut along = |low: u32, high: u32| 64 * (low + rng.up_to(high - low)) as i32;
    let points = [(); 6].map(|()| (along(part.left, part.right), along(part.top, part.bottom)));
    let rows = call.x.len();
    let is_quiet = |point: &(i32, i32)| !(0..rows).any(|row| is_inside(call, row, *point, radius));
    if let Some(point) = points.into_iter().find(is_quiet) {
        return Some(point);
    }
    (needs_quiet || rng.one_in(2)).then(|| {
        drop_inside(call, points[0], radius);
        points[0]
    })
}

pub fn drop_inside(call: &mut Call, point: (i32, i32), radius: i32) {
    for row in (0..call.x.len()).rev().filter(|row| *row < MOST_STATIONS) {
        if is_inside(call, row, point, radius) {
            call.x.remove(row);
            call.y.remove(row);
            call.value.remove(row);
            call.observed.remove(row);
            call.from.remove(row);
            call.until.remove(row);
        }
    }
}

/// A place inside the radius round a point, not at it: on the grid, or a post.
fn within(rng: &mut Rng, call: &Call, (x, y): (i32, i32), radius: i32) -> Option<(i32, i32)> {
    let reach = radius - 1;
    let mut places = [(); 12].iter().map(|()| {
        let (dx, dy) = (rng.between(-reach, reach), rng.between(-reach, reach));
        let near = rng.between(1, reach.clamp(1, 64));
        rng.pick(&[(dx, dy), (dx, dy), (dx, 0), (0, dy), (near, 0), (0, -near)])
    });
    let place = places.find(|(dx, dy)| {
        let d2 = dx * dx + dy * dy;
        0 < d2 && d2 < radius * radius && call.shape().holds_within(x + dx, y + dy, BORDER)
    });
    place.map(|(dx, dy)| (x + dx, y + dy))
}

/// A place inside the radius round a point and at least so far beyond the border that
/// the point stands on.
fn beyond(
    rng: &mut Rng,
    call: &Call,
    (x, y): (i32, i32),
    radius: i32,
    least: i32,
) -> Option<(i32, i32)> {
    let (last_x, last_y) = (64 * call.nx as i32 - 64, 64 * call.ny as i32 - 64);
    let most = if least > 1 { radius - 1 } else { (radius - 1).min(BORDER as i32) };
    if most < least {
        return None;
    }
    let out = rng.between(least, most.min(least + 60));
    let ways = [
        (x == 0, (-out, y)),
        (x == last_x, (last_x + out, y)),
        (y == 0, (x, -out)),
        (y == last_y, (x, last_y + out)),
    ];
    let open: Vec<_> = ways.into_iter().filter(|way| way.0).map(|way| way.1).collect();
    (!open.is_empty()).then(|| rng.pick(&open))
}

fn on_rim(
    rng: &mut Rng,
    call: &Call,
    point: (i32, i32),
    radius: i32,
    rim: Rim,
) -> Option<(i32, i32)> {
    let (least, most) = rim.squares(radius);
    let top = least + i64::from(rng.up_to((most - least).max(0) as u32));
    let found = offset(rng, (least, top)).or_else(|| offset(rng, (least, most)));
    found.and_then(|offset| placed(rng, call, point, offset))
}

/// A difference up to a size for which weight·D, with the round weight, is half of
/// the scale past a multiple of it, or just short of that, if there is one; or else any.
fn tie(rng: &mut Rng, point: (i32, i32), place: (i32, i32), radius: i32, most: i32) -> i32 {
    let (dx, dy) = (i64::from(place.0 - point.0), i64::from(place.1 - point.1));
    let weight = weight(i64::from(radius).pow(2), dx * dx + dy * dy);
    let half = WEIGHT_SCALE / 2;
    let least = rng.pick(&[half, half, half - HUNDREDTHS / 2]);
    let is_tie = |d: &i32| {
        let rest = weight * i64::from(*d) % WEIGHT_SCALE;
        rest == least || least < rest && rest < half
    };
    let found = (1..=most.min(FOR_A_TIE)).find(is_tie);
    // Below zero a half away from zero is unlike one that goes up.
    found.unwrap_or(most) * rng.pick(&[-1, -1, 1])
}

/// Adds a row that takes part, with a difference from the first guess.
pub fn push(call: &mut Call, (x, y): (i32, i32), difference: i32) {
    let value = guess_at(call, x, y).saturating_add(difference);
    push_station(call, x, y, value.clamp(*VALUE.start(), *VALUE.end()));
}

fn put_beside(
    rng: &mut Rng,
    call: &mut Call,
    point: (i32, i32),
    radius: i32,
    scan: usize,
    beside: Beside,
) {
    match beside {
        Beside::Silent(number) => {
            for _ in 0..number {
                if let Some(place) = on_rim(rng, call, point, radius, Rim::Silent) {
                    let d = rng.between(-5, 5);
                    push(call, place, d);
                }
            }
        }
        Beside::AtTheRim => {
            if let Some(place) = on_rim(rng, call, point, radius, Rim::By(0)) {
                let d = rng.between(-5, 5);
                push(call, place, d);
            }
        }
        Beside::Dead(verdict) => {
            let far = beyond(rng, call, point, radius, BORDER as i32 + 1);
            let near = within(rng, call, point, radius).unwrap_or(point);
            let (place, verdict) = match (verdict, far) {
                (5, Some(far)) => (far, 5),
                (5, None) => (near, 1),
                _ => (near, verdict),
            };
            push(call, place, 0);
            bury(call, verdict);
        }
        Beside::Rejected | Beside::RejectedBefore => {
            let (near, post) =
                (within(rng, call, point, radius), beyond(rng, call, point, radius, 1));
            let (at, place) = match beside {
                Beside::Rejected => (scan, near),
                // A post's D stays, and is not followed by the field.
                _ => (scan - rng.up_to(scan.min(1) as u32) as usize, post.or(near)),
            };
            push_rejected(rng, call, place.unwrap_or(point), at);
        }
        _ => (),
    }
}

/// Makes the last row one with the verdict, or one whose observation is missing where
/// the minutes have no room for that.
pub fn bury(call: &mut Call, verdict: u8) {
    bury_row(call, call.x.len() - 1, verdict);
}

/// The same of any row. Those past the border have been put there.
pub fn bury_row(call: &mut Call, row: usize, verdict: u8) {
    let (time, age) = (call.time, call.age);
    let oldest = time.checked_sub(age).and_then(|oldest| oldest.checked_sub(1));
    match verdict {
        2 if time > 0 => (call.from[row], call.until[row]) = (0, time),
        2 => (call.from[row], call.until[row]) = (1, NO_END),
        3 if time < u32::MAX => call.observed[row] = time + 1,
        4 if oldest.is_some() => call.observed[row] = oldest.unwrap_or(0),
        5 => (),
        _ => call.value[row] = MISSING,
    }
}

/// A row that a scan rejects, and none before it, as far as the field stays: its limit
/// is below those before.
fn push_rejected(rng: &mut Rng, call: &mut Call, place: (i32, i32), scan: usize) {
    let at = call.limit[scan].clamp(0, 300_000);
    call.limit[scan] = at;
    let past = 1 + rng.between(0, at.max(50));
    let size = 2 * at + past;
    for limit in &mut call.limit[..scan] {
        *limit = (*limit).max(size);
    }
    let d = size * rng.pick(&[-1, 1]);
    push(call, place, d);
}

#[cfg(test)]
mod tests {
    use super::*;
    use std::collections::BTreeSet;

    #[test]
    fn ties_are_found_where_there_are_any() {
        let mut rng = Rng::for_case(1, 2, 3);
        // 3,846 is twice 1,923: 2,500 times it is half the scale past a multiple.
        let mut rests = BTreeSet::new();
        for _ in 0..50 {
            let d = i64::from(tie(&mut rng, (0, 0), (64, 0), 96, 60_000));
            rests.insert((d.abs(), 3_846 * d.abs() % 10_000));
            assert_eq!(tie(&mut rng, (0, 0), (0, 0), 96, 100).abs(), 100, "the scale itself");
        }
        assert_eq!(rests.into_iter().collect::<Vec<_>>(), [(2_500, 5_000), (2_513, 4_998)]);
    }
}
