//! Winds and modes with one planted fault each, for `faulty`'s subject.

use second::call::{Analysis, Call, Refusal, Winds};
use second::refusals::{is_wind, Checked};
use second::scan::{judge, smoothed, weight, weight_at, Accepted, Effective};
use second::units::{
    rounded, ALONG_WIND, BORDER, HUNDREDTHS, LISTINGS, MISSING, MODES, ROUND, STEP, WEIGHT_SCALE,
    WIND,
};
use second::verdicts::before_first_scan;

#[derive(Clone, Copy, Debug, PartialEq, Eq)]
pub enum WindFault {
    RowBefore,
    Exchanged,
    /// q = u·dy - v·dx.
    Across,
    /// |q| for q².
    NoSquare,
    /// A station is considered wherever its effective radius reaches.
    GatedByTheEffective,
    /// 100 times the whole part in hundredths.
    CutTwice,
    EffectiveCut,
    /// To the nearest whole number, not cut.
    Rounded,
    MarkIsANumber,
    CalmIsSilent,
    StationItselfIsSilent,
    /// 10,000(P - Q) in 64 bits.
    DividendInI64,
    DividendInU64,
    /// The round weight is multiplied by D.
    StretchedInTheSumOnly,
    /// The rows of a cut have the winds of the first rows of the whole list.
    CutWithTheFirstWinds,
    UMissingPasses,
    VMissingPasses,
    /// A wind of 101.
    OnePastTheBoundPasses,
    TwoIsOne,
    OtherModesAreRound,
    ModeInOneByte,
    ModeBeforeColumns,
    PlanBeforeMode,
    TestedInMode1Only,
    WindsOfAllRowsFirst,
    WindsOfAllRowsLast,
    ColumnsUncounted,
    OnlyUCounted,
}

use WindFault::*;

pub const OF_WEIGHTS: [WindFault; 14] = [
    RowBefore,
    Exchanged,
    Across,
    NoSquare,
    GatedByTheEffective,
    CutTwice,
    EffectiveCut,
    Rounded,
    MarkIsANumber,
    CalmIsSilent,
    StationItselfIsSilent,
    DividendInI64,
    DividendInU64,
    StretchedInTheSumOnly,
];

pub const OF_REFUSALS: [WindFault; 13] = [
    UMissingPasses,
    VMissingPasses,
    OnePastTheBoundPasses,
    TwoIsOne,
    OtherModesAreRound,
    ModeInOneByte,
    ModeBeforeColumns,
    PlanBeforeMode,
    TestedInMode1Only,
    WindsOfAllRowsFirst,
    WindsOfAllRowsLast,
    ColumnsUncounted,
    OnlyUCounted,
];

/// The winds of a call changed row by row.
fn with_winds(call: &Call, change: impl Fn(i32, i32) -> (i32, i32)) -> Call {
    let mut call = call.clone();
    if let Some(winds) = &mut call.winds {
        for (u, v) in winds.u.iter_mut().zip(&mut winds.v) {
            (*u, *v) = change(*u, *v);
        }
    }
    call
}

/// The call as one who tests too little goes on with it: with as many winds as
/// rows, all of them good, and a mode that there is.
pub fn tamed(call: &Call) -> Call {
    let mut call = counted(call, |_| true);
    call.mode = call.mode.min(*MODES.end());
    with_winds(&call, |u, v| if is_wind(u, v) { (u, v) } else { (MISSING, MISSING) })
}

/// The call with some of its wind columns as long as x.
fn counted(call: &Call, is_fitted: fn(usize) -> bool) -> Call {
    let (mut call, rows) = (call.clone(), call.x.len());
    let columns = call.winds.iter_mut().flat_map(Winds::columns_mut).enumerate();
    columns.filter(|(at, _)| is_fitted(*at)).for_each(|(_, column)| column.resize(rows, MISSING));
    call
}

/// The call as a faulty test sees it.
fn as_tested(call: &Call, fault: WindFault) -> Call {
    let none = (MISSING, MISSING);
    let within = |number: i32| match number {
        -101 | 101 => number.clamp(*WIND.start(), *WIND.end()),
        number => number,
    };
    match fault {
        UMissingPasses => with_winds(call, |u, v| if u == MISSING { none } else { (u, v) }),
        VMissingPasses => with_winds(call, |u, v| if v == MISSING { none } else { (u, v) }),
        OnePastTheBoundPasses => with_winds(call, |u, v| (within(u), within(v))),
        TestedInMode1Only if call.mode != ALONG_WIND => with_winds(call, |_, _| none),
        TwoIsOne if call.mode == 2 => Call { mode: ALONG_WIND, ..call.clone() },
        OtherModesAreRound => Call { mode: ROUND, ..call.clone() },
        ModeInOneByte => Call { mode: call.mode % 256, ..call.clone() },
        ColumnsUncounted => counted(call, |_| true),
        OnlyUCounted => counted(call, |column| column == 1),
        _ => call.clone(),
    }
}

/// The test of a call with a fault in it.
pub fn check(call: &Call, fault: WindFault, test: &dyn Fn(&Call) -> Checked) -> Checked {
    let right = test(&as_tested(call, fault));
    let number = right.err().map_or(0, |refusal| refusal.number);
    let with_mode = |mode: u32| test(&Call { mode, ..call.clone() });
    match fault {
        ModeBeforeColumns if number == 4 && !MODES.contains(&call.mode) => Err(Refusal::new(5, 0)),
        PlanBeforeMode if number == 5 => match with_mode(ROUND) {
            Err(later) if later.number == 6 => Err(later),
            _ => right,
        },
        WindsOfAllRowsFirst if number == 8 => test(&with_good_rows(call)).and(right),
        WindsOfAllRowsLast if number == 8 => {
            test(&with_winds(call, |_, _| (MISSING, MISSING))).and(right)
        }
        _ => right,
    }
}

/// The call with rows in which only the wind can be at fault.
fn with_good_rows(call: &Call) -> Call {
    let mut call = call.clone();
    call.x.fill(0);
    call.y.fill(0);
    call.value.fill(MISSING);
    call.from.fill(0);
    call.until.fill(1);
    call
}

/// A good call with winds that are out of place.
fn misplaced(call: &Call, fault: WindFault) -> Call {
    let mut moved = call.clone();
    match fault {
        RowBefore => {
            for column in moved.winds.iter_mut().flat_map(Winds::columns_mut) {
                (1..column.len()).rev().for_each(|row| column[row] = column[row - 1]);
            }
            moved
        }
        Exchanged => with_winds(call, |u, v| (v, u)),
        // u·dy - v·dx is the q of this wind; a mark stays one.
        Across => with_winds(call, |u, v| if u == MISSING { (u, v) } else { (-v, u) }),
        _ => moved,
    }
}

/// A cut with the winds of the first rows of the whole list.
pub fn with_the_first_winds(call: &Call, mut cut: Call) -> Call {
    let first: Vec<usize> = (0..cut.x.len()).collect();
    cut.winds = call.winds.as_ref().map(|winds| winds.of_rows(&first));
    cut
}

/// The scheme with a fault of its weights.
pub fn run(call: &Call, fault: WindFault) -> Analysis {
    let call = &misplaced(call, fault);
    let mut grid = call.first_guess.clone();
    let mut support = vec![0; grid.len()];
    let mut verdict = before_first_scan(call, BORDER);
    for scan in 0..call.scans as usize {
        let accepted = judge(call, &grid, scan, &mut verdict);
        correct(call, scan, &accepted, &mut grid, &mut support, fault);
        if call.smooth {
            grid = smoothed(call.shape(), &grid);
        }
    }
    Analysis { grid, support, verdict }
}

fn correct(
    call: &Call,
    scan: usize,
    accepted: &[Accepted],
    grid: &mut [i32],
    support: &mut [u8],
    fault: WindFault,
) {
    let r2 = i64::from(call.radius[scan]).pow(2);
    let nx = call.shape().nx;
    let stretched = call.mode == ALONG_WIND;
    for (point, value) in grid.iter_mut().enumerate() {
        let (x, y) = (STEP * (point % nx) as i64, STEP * (point / nx) as i64);
        let (mut weights, mut weighted, mut inside) = (0, 0, 0);
        for station in accepted {
            let (dx, dy) = station.offset(x, y);
            inside += u32::from(dx * dx + dy * dy < r2);
            let (in_the_sum, with_d) = match stretched {
                true => faulty_weights(r2, station.offset(x, y), station.wind, fault),
                false => both(weight_at(WEIGHT_SCALE, r2, station.offset(x, y), None)),
            };
            weights += in_the_sum;
            weighted += with_d * station.difference;
        }
        if weights > 0 {
            let alone = call.rule() == LISTINGS && inside == 1;
            let over = if alone { WEIGHT_SCALE } else { weights };
            *value = value.wrapping_add(rounded(weighted, over) as i32);
            support[point] |= 1 << scan;
        }
    }
}

fn both(weight: i64) -> (i64, i64) {
    (weight, weight)
}

/// The weight in the sum of weights, and the one that is multiplied by D.
fn faulty_weights(
    r2: i64,
    offset: (i64, i64),
    wind: Option<(i64, i64)>,
    fault: WindFault,
) -> (i64, i64) {
    let d2 = offset.0 * offset.0 + offset.1 * offset.1;
    let right = weight_at(WEIGHT_SCALE, r2, offset, wind);
    let far = d2 >= r2 && fault != GatedByTheEffective;
    match (wind, fault) {
        (None, MarkIsANumber) if !far && d2 > 0 => both(by_the_mark(r2, offset)),
        (None, _) => both(right),
        (Some((0, 0)), CalmIsSilent) => both(0),
        (Some((0, 0)), _) => both(right),
        (_, StationItselfIsSilent) if d2 == 0 => both(0),
        _ if far || d2 == 0 => both(right),
        (Some(wind), fault) => of_effective(Effective::new(r2, offset, wind), d2, fault)
            .unwrap_or_else(|| match fault {
                NoSquare => both(without_square(r2, offset, wind)),
                CutTwice => both(100 * weight_at(HUNDREDTHS, r2, offset, Some(wind))),
                StretchedInTheSumOnly => (right, weight(r2, d2)),
                _ => both(right),
            }),
    }
}

/// Faults in what is made of the right effective radius.
fn of_effective(effective: Effective, d2: i64, fault: WindFault) -> Option<(i64, i64)> {
    let Effective { over, under } = effective;
    let far = under * i128::from(d2);
    let (dividend, divisor) = (i128::from(WEIGHT_SCALE) * (over - far), over + far);
    let weight = match fault {
        GatedByTheEffective => effective.weight(WEIGHT_SCALE, d2).max(0),
        EffectiveCut => Effective { over: over / under, under: 1 }.weight(WEIGHT_SCALE, d2),
        Rounded => ((2 * dividend + divisor) / (2 * divisor)) as i64,
        DividendInI64 => dividend as i64 / divisor as i64,
        DividendInU64 => (dividend as u64 / divisor as u64) as i64,
        _ => return None,
    };
    Some(both(weight))
}

fn without_square(r2: i64, (dx, dy): (i64, i64), (u, v): (i64, i64)) -> i64 {
    let under = i128::from((u * u + v * v) * (dx * dx + dy * dy));
    let over = i128::from(r2) * (under + i128::from((u * dx + v * dy).abs()));
    Effective { over, under }.weight(WEIGHT_SCALE, dx * dx + dy * dy)
}

/// With the mark for both u and v, the wind blows along the diagonal: its
/// strength does not matter.
fn by_the_mark(r2: i64, offset: (i64, i64)) -> i64 {
    weight_at(WEIGHT_SCALE, r2, offset, Some((-1, -1)))
}
