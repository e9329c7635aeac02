//! The generator of stations near the rim of a radius: inside it with hardly a
//! weight or with none, exactly on it, and just outside.

use crate::call::{Call, Window};
use crate::generate::{guess_at, push_station};
use crate::refusals::{check_request, check_shape};
use crate::rng::Rng;
use crate::units::{BORDER, HUNDREDTHS, MOST_STATIONS, STEP, VALUE, WEIGHT_SCALE};

/// Where a station stands to the rim.
#[derive(Clone, Copy)]
pub enum Rim {
    /// With a weight that hundredths would not give.
    Faint,
    /// With a weight of 1.
    Least,
    /// Inside, and without a weight.
    Silent,
    /// At a squared distance of R² and so much.
    By(i64),
}

const RIMS: [Rim; 8] = [
    Rim::Faint,
    Rim::Faint,
    Rim::Least,
    Rim::Silent,
    Rim::Silent,
    Rim::By(-1),
    Rim::By(0),
    Rim::By(1),
];

impl Rim {
    /// The least and the greatest squared distance. A weight is at least w as
    /// far out as (10,000 - w)R² over 10,000 + w.
    pub fn squares(self, radius: i32) -> (i64, i64) {
        let r2 = i64::from(radius).pow(2);
        let farthest = |w: i64| (WEIGHT_SCALE - w) * r2 / (WEIGHT_SCALE + w);
        match self {
            Rim::Faint => (farthest(WEIGHT_SCALE / HUNDREDTHS) + 1, farthest(1)),
            Rim::Least => (farthest(2) + 1, farthest(1)),
            Rim::Silent => (farthest(1) + 1, r2 - 1),
            Rim::By(more) => (r2 + more, r2 + more),
        }
    }
}

/// Gives some requests a station on the rim of a scan's radius round a point of
/// a part of the grid, often one that hears no other, and some of these another
/// round the same point. The radius may become a little shorter, so that there
/// is such a place at all. The reach stays, and so does whatever else is drawn
/// for the request.
pub fn add_on_a_rim(rng: &Rng, call: &mut Call, part: &Window) {
    let rng = &mut rng.beside();
    let room = MOST_STATIONS.saturating_sub(call.x.len());
    if room < 2 || call.nx < 2 || call.ny < 2 || !rng.one_in(3) {
        return;
    }
    let scan = rng.up_to(call.scans - 1) as usize;
    let rim = rng.pick(&RIMS);
    if let Some(radius) = radius_with(rng, rim, call.radius[scan]) {
        let radii = call.radius[scan..call.scans as usize].iter_mut();
        radii.for_each(|later| *later = (*later).min(radius));
    }
    let radius = call.radius[scan];
    let point = lonely_point(rng, call, part, radius);
    add_station(rng, call, point, radius, rim);
    if rng.one_in(3) {
        let beside = rng.pick(&[rim, Rim::Faint]);
        add_station(rng, call, point, radius, beside);
    }
}

/// Adds a station that is inside the radius of a scan and without a round weight
/// at a point of a part of the grid, often one that hears no other. The plan
/// stays, so where its radius has no such place nothing is added, and neither is
/// to a request at fault.
pub fn add_silent(rng: &mut Rng, call: &mut Call, part: &Window) {
    let shape = check_shape(call.nx, call.ny, call.first_guess.len());
    let good = shape.and_then(|_| check_request(call)).is_ok();
    if !good || call.x.len() == MOST_STATIONS {
        return;
    }
    let radius = call.radius[rng.up_to(call.scans - 1) as usize];
    let point = lonely_point(rng, call, part, radius);
    add_station(rng, call, point, radius, Rim::Silent);
}

/// The greatest radius up to one, of as many grid steps, that has such a rim.
pub fn radius_with(rng: &mut Rng, rim: Rim, most: i32) -> Option<i32> {
    let step = STEP as i32;
    let least = (most - 1) / step * step + 1;
    (least..=most).rev().find(|radius| offset(rng, rim.squares(*radius)).is_some())
}

/// A whole offset along x and y whose square lies between these, if there is
/// one; along x it is the shorter.
pub fn offset(rng: &mut Rng, (least, most): (i64, i64)) -> Option<(i32, i32)> {
    if least == most && most % 4 == 3 {
        // No sum of two squares is such a number, and the search is long.
        return None;
    }
    let longest = (most / 2).isqrt();
    let first = i64::from(rng.up_to(longest as u32));
    let turned = (first..=longest).chain(0..first);
    let mut offsets = turned.map(|dx| (dx, (most - dx * dx).isqrt()));
    let found = offsets.find(|(dx, dy)| dx * dx + dy * dy >= least);
    found.map(|(dx, dy)| (dx as i32, dy as i32))
}

/// The position of a point of a part of the grid: of a few, one that no station
/// is inside the radius of, or else any.
fn lonely_point(rng: &mut Rng, call: &Call, part: &Window, radius: i32) -> (i32, i32) {
    let mut along = |low: u32, high: u32| 64 * (low + rng.up_to(high - low)) as i32;
    let points = [(); 6].map(|()| (along(part.left, part.right), along(part.top, part.bottom)));
    let is_lonely = |(x, y): &(i32, i32)| {
        let square = |row: usize| {
            let (dx, dy) = (i64::from(call.x[row] - x), i64::from(call.y[row] - y));
            dx * dx + dy * dy
        };
        (0..call.x.len()).all(|row| square(row) >= i64::from(radius).pow(2))
    };
    points.into_iter().find(is_lonely).unwrap_or(points[0])
}

/// Adds a station, if there is room for it round the point. What it differs by
/// from the first guess is within every limit that the plan has so far.
fn add_station(rng: &mut Rng, call: &mut Call, point: (i32, i32), radius: i32, rim: Rim) {
    let (least, most) = rim.squares(radius);
    // Anywhere in the range: the outermost places are not the only ones.
    let top = least + i64::from(rng.up_to((most - least).max(0) as u32));
    let found = offset(rng, (least, top)).or_else(|| offset(rng, (least, most)));
    let Some((x, y)) = found.and_then(|offset| placed(rng, call, point, offset)) else {
        return;
    };
    // The widest limits let anything pass, and wild values are not asked for.
    let limits = &call.limit[..call.scans as usize];
    let widest = limits.iter().min().map_or(0, |limit| (*limit).clamp(0, 2_000));
    let value = guess_at(call, x, y) + rng.between(-widest, widest);
    push_station(call, x, y, value.clamp(*VALUE.start(), *VALUE.end()));
}

/// A place at such an offset from a point, whichever way: on the grid, or else
/// where a post may be.
pub fn placed(
    rng: &mut Rng,
    call: &Call,
    (x, y): (i32, i32),
    (dx, dy): (i32, i32),
) -> Option<(i32, i32)> {
    let quarter = [(dx, dy), (-dx, dy), (dx, -dy), (-dx, -dy)];
    let mut places: Vec<(i32, i32)> =
        quarter.iter().flat_map(|(dx, dy)| [(x + dx, y + dy), (x + dy, y + dx)]).collect();
    places.rotate_left(rng.below(8));
    let within = |border: i64| {
        places.iter().copied().find(|place| call.shape().holds_within(place.0, place.1, border))
    };
    within(0).or_else(|| within(BORDER))
}

#[cfg(test)]
mod tests {
    use super::*;
    use crate::scan::{weight, weight_in};

    #[test]
    fn rims_have_the_weights_they_are_named_for() {
        assert_eq!(Rim::Faint.squares(64), (4_015, 4_095));
        for radius in 1..=200_i32 {
            let r2 = i64::from(radius).pow(2);
            for d2 in 0..r2 {
                let (new, old) = (weight(r2, d2), weight_in(HUNDREDTHS, r2, d2));
                let is_on = |rim: Rim| {
                    let (least, most) = rim.squares(radius);
                    (least..=most).contains(&d2)
                };
                let given = [Rim::Faint, Rim::Least, Rim::Silent].map(is_on);
                assert_eq!(given, [new > 0 && old == 0, new == 1, new == 0], "{radius} {d2}");
            }
        }
    }

    #[test]
    fn offsets_are_found_where_there_are_any() {
        let mut rng = Rng::for_case(1, 2, 3);
        for square in 0..2_000_i64 {
            let is_sum = (0..=square.isqrt())
                .any(|dx| (square - dx * dx).isqrt().pow(2) == square - dx * dx);
            let found = offset(&mut rng, (square, square));
            assert_eq!(found.is_some(), is_sum, "{square}");
            assert!(found.is_none_or(|(dx, dy)| i64::from(dx * dx + dy * dy) == square));
        }
    }
}
