//! Weights with one planted fault each, for `faulty`'s scheme.

use second::call::Call;
use second::scan::{Accepted, Effective};
use second::units::{rounded, HUNDREDTHS, LISTINGS, RADIUS, STEP, WEIGHT_SCALE};

#[derive(Clone, Copy, Debug, PartialEq, Eq)]
pub enum WeightFault {
    /// On another scale.
    Scale(i64),
    /// To the nearest whole number, not cut.
    Rounded,
    /// The one sum in hundredths, the other not.
    HundredthsInTheSum,
    HundredthsWithD,
    /// 10,000(R² - d2) in 32 bits.
    DividendInU32,
    DividendInI32,
    /// The whole part of 20,000 R²/(R² + d2), less 10,000, in 32 bits.
    TwiceInU32,
    TwiceInI32,
    /// Also where no station inside the radius has a weight.
    SupportOfAllInside,
    /// Only where a station has a weight in hundredths.
    SupportOfHundredths,
}

use WeightFault::*;

pub const OF_NUMBERS: [WeightFault; 10] = [
    Scale(HUNDREDTHS),
    Scale(WEIGHT_SCALE - 1),
    Scale(WEIGHT_SCALE + 1),
    Rounded,
    HundredthsInTheSum,
    HundredthsWithD,
    DividendInU32,
    DividendInI32,
    TwiceInU32,
    TwiceInI32,
];

pub const OF_SUPPORT: [WeightFault; 2] = [SupportOfAllInside, SupportOfHundredths];

/// A station inside the radius: what its weight has in place of R² and of d2, and
/// its D. Where no wind stretches the weight, these are R² and d2 themselves.
struct Inside {
    r2: i128,
    d2: i128,
    difference: i64,
}

impl Inside {
    fn weight_in(&self, scale: i64) -> i64 {
        (i128::from(scale) * (self.r2 - self.d2) / (self.r2 + self.d2)) as i64
    }

    /// The weight in the sum of weights, and the one that is multiplied by D. What
    /// has too few bits goes wrong with the round weight alone.
    fn faulty_weights(&self, fault: WeightFault) -> (i64, i64) {
        let (right, hundredths) = (self.weight_in(WEIGHT_SCALE), self.weight_in(HUNDREDTHS));
        let (dividend, divisor) =
            (i128::from(WEIGHT_SCALE) * (self.r2 - self.d2), self.r2 + self.d2);
        let twice = 2 * i128::from(WEIGHT_SCALE) * self.r2;
        let is_round = self.r2 <= i128::from(*RADIUS.end()).pow(2);
        let same = |weight: i64| (weight, weight);
        let over = |dividend: i64| dividend / divisor as i64;
        match fault {
            Scale(scale) => same(self.weight_in(scale)),
            Rounded => same(((2 * dividend + divisor) / (2 * divisor)) as i64),
            HundredthsInTheSum => (hundredths, right),
            HundredthsWithD => (right, hundredths),
            DividendInU32 if is_round => same(over((dividend as u32).into())),
            DividendInI32 if is_round => same(over((dividend as i32).into())),
            TwiceInU32 if is_round => same(over((twice as u32).into()) - WEIGHT_SCALE),
            TwiceInI32 if is_round => same(over((twice as i32).into()) - WEIGHT_SCALE),
            _ => same(right),
        }
    }
}

/// Corrects all points of a scan, with the fault.
pub fn correct(
    call: &Call,
    scan: usize,
    accepted: &[Accepted],
    grid: &mut [i32],
    support: &mut [u8],
    fault: WeightFault,
) {
    let radius = i64::from(call.radius[scan]);
    let nx = call.shape().nx;
    for (j, row) in grid.chunks_mut(nx).enumerate() {
        let y = STEP * j as i64;
        let beside = accepted.iter().filter(|station| (station.y - y).abs() < radius);
        let beside: Vec<Accepted> = beside.copied().collect();
        for (i, value) in row.iter_mut().enumerate() {
            let inside = inside(&beside, radius * radius, STEP * i as i64, y);
            let (change, supports) = correction(call, &inside, fault);
            *value += change as i32;
            support[j * nx + i] |= u8::from(supports) << scan;
        }
    }
}

/// The stations inside the radius round a place.
fn inside(accepted: &[Accepted], r2: i64, x: i64, y: i64) -> Vec<Inside> {
    let square = |station: &Accepted| (station.x - x).pow(2) + (station.y - y).pow(2);
    let near = accepted.iter().map(|station| (station, square(station)));
    let near = near.filter(|(_, d2)| *d2 < r2);
    let terms = near.map(|(station, d2)| {
        let wind = station.wind.filter(|wind| *wind != (0, 0) && d2 > 0);
        let stretched = wind.map(|wind| Effective::new(r2, station.offset(x, y), wind));
        let Effective { over, under } =
            stretched.unwrap_or(Effective { over: r2.into(), under: 1 });
        Inside { r2: over, d2: under * i128::from(d2), difference: station.difference }
    });
    terms.collect()
}

/// The correction out of the stations inside the radius, and whether they
/// support. Another scale is that of lone stations too.
fn correction(call: &Call, inside: &[Inside], fault: WeightFault) -> (i64, bool) {
    let (mut weights, mut weighted) = (0, 0);
    for station in inside {
        let (in_the_sum, with_d) = station.faulty_weights(fault);
        weights += in_the_sum;
        weighted += with_d * station.difference;
    }
    let scale = if let Scale(scale) = fault { scale } else { WEIGHT_SCALE };
    let alone = call.rule() == LISTINGS && inside.len() == 1;
    let over = if alone { scale } else { weights };
    let change = if weights > 0 { rounded(weighted, over) } else { 0 };
    let supports = match fault {
        SupportOfAllInside => !inside.is_empty(),
        SupportOfHundredths => inside.iter().any(|station| station.weight_in(HUNDREDTHS) > 0),
        _ => weights > 0,
    };
    (change, supports)
}
