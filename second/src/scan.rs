//! One scan: differences and the E test, weights, corrections, smoothing.

use crate::buddy::agreeing;
use crate::call::Call;
use crate::field::Shape;
use crate::units::{rounded, ALONG_WIND, CELL, LISTINGS, STEP, WEIGHT_SCALE};
use crate::verdicts::{ACCEPTED, REJECTED};

/// A station that takes part in a scan, at its true position, with its
/// difference D and the wind that its weight goes by, if it goes by one.
#[derive(Clone, Copy, Debug)]
pub struct Accepted {
    pub row: usize,
    pub x: i64,
    pub y: i64,
    pub wind: Option<(i64, i64)>,
    pub difference: i64,
}

impl Accepted {
    pub fn new(call: &Call, row: usize, difference: i64) -> Self {
        let (x, y) = (call.x[row].into(), call.y[row].into());
        let wind = call.wind(row).filter(|_| call.mode == ALONG_WIND);
        Accepted { row, x, y, wind, difference }
    }

    /// The station's offset from a point.
    pub fn offset(&self, px: i64, py: i64) -> (i64, i64) {
        (self.x - px, self.y - py)
    }
}

/// D of one row: its observation less a rounded field at its place. On the
/// grid that is the field as the scan finds it; a post has the first guess in
/// every scan, at the nearest place on the grid.
pub fn difference(call: &Call, field: &[i32], row: usize) -> i64 {
    let (shape, x, y) = (call.shape(), call.x[row], call.y[row]);
    let field = if shape.holds(x, y) { field } else { &call.first_guess };
    i64::from(call.value[row]) - rounded_at(shape, field, x, y)
}

/// A field at the nearest place on the grid, interpolated and rounded once.
pub fn rounded_at(shape: Shape, field: &[i32], x: i32, y: i32) -> i64 {
    let (x, y) = shape.nearest(x, y);
    rounded(shape.interpolation_sum(field, x, y), CELL)
}

/// Judges every station, first by itself and then by its neighbours, and gives those
/// still accepted.
pub fn judge(call: &Call, field: &[i32], scan: usize, verdict: &mut [u8]) -> Vec<Accepted> {
    let survivors = survivors(call, field, scan, verdict);
    agreeing(call, scan, survivors, verdict)
}

/// The E test: judges every station against the field as the scan finds it and gives
/// those that pass. `scan` counts from 0. A row that was rejected or set aside never
/// returns, because only rows with verdict 0 are looked at.
pub fn survivors(call: &Call, field: &[i32], scan: usize, verdict: &mut [u8]) -> Vec<Accepted> {
    let mut accepted = Vec::new();
    for (row, verdict) in verdict.iter_mut().enumerate() {
        if *verdict != ACCEPTED {
            continue;
        }
        let difference = difference(call, field, row);
        if difference.abs() > i64::from(call.limit[scan]) {
            *verdict = REJECTED + 1 + scan as u8;
        } else {
            accepted.push(Accepted::new(call, row, difference));
        }
    }
    accepted
}

/// The round weight of a station at squared distance `d2`, for a squared radius.
pub fn weight(r2: i64, d2: i64) -> i64 {
    weight_in(WEIGHT_SCALE, r2, d2)
}

/// The same on another scale, which is the weight at the station itself.
pub fn weight_in(scale: i64, r2: i64, d2: i64) -> i64 {
    if d2 >= r2 {
        0
    } else {
        scale * (r2 - d2) / (r2 + d2)
    }
}

/// The effective squared radius of a station, "kept as an exact fraction". With
/// 10,000 times their difference the two numbers outgrow 64 bits.
#[derive(Clone, Copy, Debug, PartialEq, Eq)]
pub struct Effective {
    pub over: i128,
    pub under: i128,
}

impl Effective {
    /// "R²(1 + (u·dx + v·dy)²/(V·d2))", for a wind that is not calm at a point
    /// where the station does not stand.
    pub fn new(r2: i64, (dx, dy): (i64, i64), (u, v): (i64, i64)) -> Self {
        let under = i128::from((u * u + v * v) * (dx * dx + dy * dy));
        let along = i128::from(u * dx + v * dy);
        Effective { over: i128::from(r2) * (under + along * along), under }
    }

    /// The weight that "uses it in place of R², with one whole-part at the end".
    pub fn weight(self, scale: i64, d2: i64) -> i64 {
        let d2 = self.under * i128::from(d2);
        let weight = i128::from(scale) * (self.over - d2) / (self.over + d2);
        // It is at most the scale.
        weight as i64
    }
}

/// The weight of a station at an offset from a point, by its wind if it has one.
/// "Only stations with d2 < R² are considered", and "calm, missing wind or d2 = 0
/// gives the round weight".
pub fn weight_at(scale: i64, r2: i64, offset: (i64, i64), wind: Option<(i64, i64)>) -> i64 {
    let d2 = offset.0 * offset.0 + offset.1 * offset.1;
    match wind {
        Some(wind) if wind != (0, 0) && 0 < d2 && d2 < r2 => {
            Effective::new(r2, offset, wind).weight(scale, d2)
        }
        _ => weight_in(scale, r2, d2),
    }
}

/// What the accepted stations come to at a point: how many of them are "strictly
/// inside the radius", whatever their weight, the sum of weights, and the sum of
/// weight times D.
#[derive(Clone, Copy, Debug, Default, PartialEq, Eq)]
pub struct Sums {
    pub inside: usize,
    pub weights: i64,
    pub weighted: i64,
}

impl Sums {
    /// Under rule 2 "a point with exactly one accepted station strictly inside the
    /// radius is moved by weight·D over the full weight scale, rounded". Every other
    /// point is moved as document 01 has it.
    pub fn correction(&self, rule: u32, scale: i64) -> i64 {
        if rule == LISTINGS && self.inside == 1 {
            rounded(self.weighted, scale)
        } else if self.weights > 0 {
            rounded(self.weighted, self.weights)
        } else {
            0
        }
    }

    /// The same under both rules.
    pub fn supports(&self) -> bool {
        self.weights > 0
    }
}

/// The sums at the point (i, j).
pub fn sums(i: usize, j: usize, radius: i32, scale: i64, accepted: &[Accepted]) -> Sums {
    let (px, py) = (STEP * i as i64, STEP * j as i64);
    let r2 = i64::from(radius) * i64::from(radius);
    let mut sums = Sums::default();
    for station in accepted {
        let (dx, dy) = station.offset(px, py);
        if dx * dx + dy * dy < r2 {
            let w = weight_at(scale, r2, (dx, dy), station.wind);
            sums.inside += 1;
            sums.weights += w;
            sums.weighted += w * station.difference;
        }
    }
    sums
}

/// Corrects all points. The differences were taken before, so no corrected
/// point can feed them.
pub fn correct(
    call: &Call,
    scan: usize,
    scale: i64,
    accepted: &[Accepted],
    field: &mut [i32],
    support: &mut [u8],
) {
    let shape = call.shape();
    let radius = i64::from(call.radius[scan]);
    for j in 0..shape.ny {
        // A station this far off in y alone is inside at no point of the row.
        let beside = |station: &&Accepted| (station.y - STEP * j as i64).abs() < radius;
        let near: Vec<Accepted> = accepted.iter().filter(beside).copied().collect();
        for i in 0..shape.nx {
            let sums = sums(i, j, call.radius[scan], scale, &near);
            let point = shape.index(i, j);
            // A correction is at most E in size, so i32 holds the sum.
            field[point] += sums.correction(call.rule(), scale) as i32;
            support[point] |= u8::from(sums.supports()) << scan;
        }
    }
}

const PATTERN: [[i64; 3]; 3] = [[1, 2, 1], [2, 4, 2], [1, 2, 1]];
pub const PATTERN_SUM: i64 = 16;

/// The sum of nine values under the pattern, by column and row; the point
/// itself is at (1, 1).
pub fn pattern_sum(value: impl Fn(usize, usize) -> i32) -> i64 {
    let mut sum = 0;
    for (dj, shares) in PATTERN.iter().enumerate() {
        for (di, share) in shares.iter().enumerate() {
            sum += share * i64::from(value(di, dj));
        }
    }
    sum
}

/// That sum at the inner point (i, j) of a field.
pub fn smoothing_sum(shape: Shape, field: &[i32], i: usize, j: usize) -> i64 {
    pattern_sum(|di, dj| field[shape.index(i + di - 1, j + dj - 1)])
}

/// The smoothed field: inner points all at once, border points kept.
pub fn smoothed(shape: Shape, field: &[i32]) -> Vec<i32> {
    let mut smooth = field.to_vec();
    for j in 1..shape.ny - 1 {
        for i in 1..shape.nx - 1 {
            let sum = smoothing_sum(shape, field, i, j);
            // A mean of nine points lies between them, so i32 holds it.
            smooth[shape.index(i, j)] = rounded(sum, PATTERN_SUM) as i32;
        }
    }
    smooth
}
