//! The sorts of winds and modes that a run must not lose, by name and number. A
//! name lists in brackets what its numbers, from 0, stand for. A request is
//! counted once for each sort. As in `weight_sorts`, a request with very many
//! pairs of a point and a station is sampled, and not run once more.

use crate::call::{Analysis, Call, Refusal, Window, Winds};
use crate::refusals::{check_request, is_wind};
use crate::scan::{weight, Accepted, Effective};
use crate::scheme::run;
use crate::sorts::{floors_in_order, named, Sort};
use crate::tally::Floor;
use crate::units::{
    ALONG_WIND, BORDER, HUNDREDTHS, MISSING, MODES, MOST_STATIONS, ROUND, RULES, WEIGHT_SCALE, WIND,
};
use crate::verdicts::{before_first_scan, takes_part, ACCEPTED};
use crate::weight_sorts::{each_point, is_small, Around};
use crate::window::{pick, reach, rows_on, widened};

const GIVEN: &str = "accepted request with winds (left out in mode 0, in mode 1, \
    all missing in mode 0, in mode 1, some in mode 0, in mode 1)";

macro_rules! by_mode {
    ($sort:literal, $numbers:literal) => {
        [concat!($sort, ", in mode 0 ", $numbers), concat!($sort, ", in mode 1 ", $numbers)]
    };
}

const WINDS: [&str; 2] = by_mode!(
    "wind of a station that takes part",
    "(missing, calm, along x, along y, 100 and 100, 100 and -100, -100 and 100, -100 and -100, \
     otherwise)"
);
const LIES: [&str; 2] = by_mode!(
    "station inside the radius with a wind",
    "(along its offset from the point, at right angles to it, neither, standing at the point)"
);
const GAINED: &str = "point with support that only the wind gives (in the first scan, later)";
const OUTSIDE: &str =
    "station inside its effective radius at a squared distance of R² (itself, and more)";
const WIDE: &str = "stretched weight with 10,000(P - Q) past (i64, u64)";
const FRACTION: &str = "stretched weight that changes (cut to hundredths, with its effective \
    squared radius cut, rounded)";
const WHOLE: &str = "stretched weight above the round one (with a fraction, with none)";
const UNLIKE: &str = "request unlike itself in mode 0 (in grid, support, verdicts)";
const UNLIKE_INSIDE: &str = "window unlike itself in mode 0 (in grid, in support)";
const CUT: &str = "cut in mode 1 whose rows have other winds (by their numbers in the whole list)";

const COLUMN: &str = "refusal 4 by one wind column alone (u one short, v one short, u one long, \
    v one long, u empty, v empty, u over 512, v over 512)";
const BOTH: &str = "refusal 4 by both wind columns, equally (one short, one long, empty)";
const MODE: &str = "refusal 5 by the mode alone (2, 3, u32's greatest, another)";
const MODE_TOO: &str = "bad mode with a fault too (of columns, scan count, plan, first guess, row)";
const ROW: [&str; 2] = by_mode!(
    "refusal 8 by the wind alone",
    "(u missing, v missing, u 101, u -101, v 101, v -101, otherwise)"
);
const AT: &str = "refusal 8 by the wind alone at (the first row, a later one)";
const ORDER: &str = "bad wind and another fault (in one row, the wind's row first, the other's)";
const TO_COME: &str = "bad wind in a row with the verdict to come, by its number";

/// The least of each sort in a full run of analyses.
pub fn floors() -> Vec<Floor> {
    let accepted: [(&str, &[u64]); 11] = [
        (GIVEN, &[1_600, 220, 500, 400, 550, 1_900]),
        (WINDS[0], &[160, 180, 220, 220, 65, 65, 65, 65, 450]),
        (WINDS[1], &[550, 600, 750, 750, 240, 240, 240, 240, 1_600]),
        (LIES[0], &[170, 150, 450, 200]),
        (LIES[1], &[600, 500, 1_500, 700]),
        (GAINED, &[60, 40]),
        (OUTSIDE, &[550, 1_300]),
        (WIDE, &[150, 130]),
        (FRACTION, &[1_600, 1_100, 1_500]),
        (WHOLE, &[1_600, 100]),
        (UNLIKE, &[700, 110, 50]),
    ];
    let refused: [(&str, &[u64]); 8] = [
        (COLUMN, &[9; 8]),
        (BOTH, &[9, 12, 20]),
        (MODE, &[40, 20, 20, 40]),
        (MODE_TOO, &[85, 20, 20, 10, 9]),
        (ROW[0], &[6; 7]),
        (ROW[1], &[6; 7]),
        (AT, &[30, 140]),
        (ORDER, &[24; 3]),
    ];
    let in_order = |(name, least): (&'static str, &[u64])| floors_in_order(name, least);
    let to_come = (1..).zip([12, 22, 20, 7, 28]);
    let to_come = to_come.map(|(verdict, least)| Floor::times(TO_COME, verdict, least));
    accepted.into_iter().chain(refused).flat_map(in_order).chain(to_come).collect()
}

/// The same in a full run of windows or screens, with what only these have.
pub fn window_floors() -> Vec<Floor> {
    let inside = floors_in_order(UNLIKE_INSIDE, &[550, 95]);
    [floors(), inside, floors_in_order(CUT, &[1_300])].concat()
}

/// The real stations are asked for in both modes, the second time with winds of
/// some sorts.
pub fn real_floors() -> Vec<Floor> {
    let given = [0, 5].map(|n| Floor::fixed(GIVEN, n, 6));
    let winds = [0, 1, 8].map(|n| Floor::fixed(WINDS[1], n, 6));
    [&given[..], &winds].concat()
}

/// The sorts of an accepted request with the windows that are asked for, if any.
pub fn of_accepted(call: &Call, analysis: &Analysis, windows: &[Window]) -> Vec<Sort> {
    let mode = call.mode as usize;
    let given = match &call.winds {
        None => 0,
        Some(winds) if winds.u.iter().all(|u| *u == MISSING) => 1,
        _ => 2,
    };
    let mut sorts = vec![(GIVEN, (2 * given + mode) as u32)];
    if given == 2 {
        let whole = Window::new(0, call.nx - 1, 0, call.ny - 1);
        sorts.extend(named(WINDS[mode], taking_part(call, &analysis.verdict)));
        sorts.extend(Found::of(call, &whole, &analysis.verdict).sorts(mode));
        if call.mode == ALONG_WIND {
            sorts.extend(unlike_round(call, analysis, windows));
            sorts.extend(named(CUT, [windows.iter().any(|window| has_other_winds(call, window))]));
        }
    }
    sorts
}

/// The sorts of the winds of the stations that take part.
fn taking_part(call: &Call, verdict: &[u8]) -> [bool; 9] {
    let most = i64::from(*WIND.end());
    let mut found = [false; 9];
    let rows = (0..verdict.len()).filter(|row| takes_part(verdict[*row]));
    for row in rows {
        let sort = match call.wind(row) {
            None => 0,
            Some((0, 0)) => 1,
            Some((_, 0)) => 2,
            Some((0, _)) => 3,
            Some((u, v)) if u.abs() == most && v.abs() == most => {
                4 + 2 * usize::from(u < 0) + usize::from(v < 0)
            }
            _ => 8,
        };
        found[sort] = true;
    }
    found
}

/// What differs from the same request in mode 0, at all points and at those of the
/// windows.
fn unlike_round(call: &Call, analysis: &Analysis, windows: &[Window]) -> Vec<Sort> {
    if !is_small(call) {
        return Vec::new();
    }
    let round = run(&Call { mode: ROUND, ..call.clone() });
    let unlike = [
        round.grid != analysis.grid,
        round.support != analysis.support,
        round.verdict != analysis.verdict,
    ];
    let mut inside = [false; 2];
    for window in windows {
        let [here, there] = [analysis, &round].map(|of| pick(call.shape(), of, window));
        inside[0] |= here.grid != there.grid;
        inside[1] |= here.support != there.support;
    }
    [named(UNLIKE, unlike), named(UNLIKE_INSIDE, inside)].concat()
}

/// Whether a row of the window's cut has another wind than the row of the same
/// number in the whole list.
fn has_other_winds(call: &Call, window: &Window) -> bool {
    let rows = rows_on(call, &widened(call, window, reach(call)));
    rows.iter().enumerate().any(|(own, row)| call.wind(own) != call.wind(*row))
}

/// What the pairs of a point and a station have been found to have.
#[derive(Default)]
struct Found {
    lies: [bool; 4],
    gained: [bool; 2],
    outside: [bool; 2],
    wide: [bool; 2],
    fraction: [bool; 3],
    whole: [bool; 2],
}

impl Found {
    /// In mode 0 the winds are looked at as if they counted; what only counts where
    /// they do is left out of the sorts.
    fn of(call: &Call, part: &Window, verdict: &[u8]) -> Self {
        let mut found = Found::default();
        let blown = Call { mode: ALONG_WIND, ..call.clone() };
        each_point(&blown, part, verdict, |around| found.point(&around));
        found
    }

    fn point(&mut self, around: &Around) {
        let Around { scan, r2, x, y, near } = *around;
        let (mut round, mut along) = (0, 0);
        for station in near {
            let offset = station.offset(x, y);
            let d2 = offset.0 * offset.0 + offset.1 * offset.1;
            round += weight(r2, d2);
            along += self.pair(r2, d2, offset, station);
        }
        self.gained[scan.min(1)] |= round == 0 && along > 0;
    }

    /// One station at one point, and its weight there if it is inside.
    fn pair(&mut self, r2: i64, d2: i64, offset: (i64, i64), station: &Accepted) -> i64 {
        let round = weight(r2, d2);
        let Some(wind) = station.wind.filter(|wind| *wind != (0, 0)) else {
            return round;
        };
        if d2 == 0 {
            self.lies[3] = true;
            return round;
        }
        let effective = Effective::new(r2, offset, wind);
        if d2 >= r2 {
            let heard = effective.weight(WEIGHT_SCALE, d2) > 0;
            self.outside[0] |= heard && d2 == r2;
            self.outside[1] |= heard && d2 > r2;
            return 0;
        }
        let along = wind.0 * offset.0 + wind.1 * offset.1;
        let across = wind.0 * offset.1 - wind.1 * offset.0;
        self.lies[0] |= across == 0;
        self.lies[1] |= along == 0;
        self.lies[2] |= across != 0 && along != 0;
        self.stretched(effective, d2, round)
    }

    /// The weight of a station inside the radius, not at the point, with a wind.
    fn stretched(&mut self, effective: Effective, d2: i64, round: i64) -> i64 {
        let weight = effective.weight(WEIGHT_SCALE, d2);
        let far = effective.under * i128::from(d2);
        let dividend = i128::from(WEIGHT_SCALE) * (effective.over - far);
        let rest = dividend % (effective.over + far);
        self.wide[0] |= dividend > i128::from(i64::MAX);
        self.wide[1] |= dividend > i128::from(u64::MAX);
        let cut = Effective { over: effective.over / effective.under, under: 1 };
        self.fraction[0] |= weight % (WEIGHT_SCALE / HUNDREDTHS) != 0;
        self.fraction[1] |= cut.weight(WEIGHT_SCALE, d2) != weight;
        self.fraction[2] |= 2 * rest >= effective.over + far;
        self.whole[0] |= weight > round && rest != 0;
        self.whole[1] |= weight > round && rest == 0;
        weight
    }

    fn sorts(self, mode: usize) -> Vec<Sort> {
        let lies = named(LIES[mode], self.lies);
        if mode as u32 != ALONG_WIND {
            return lies;
        }
        [
            lies,
            named(GAINED, self.gained),
            named(OUTSIDE, self.outside),
            named(WIDE, self.wide),
            named(FRACTION, self.fraction),
            named(WHOLE, self.whole),
        ]
        .concat()
    }
}

/// The sorts of a refused request.
pub fn of_refused(call: &Call, refusal: &Refusal) -> Vec<Sort> {
    let bad_mode = !MODES.contains(&call.mode);
    if bad_mode && !RULES.contains(&call.rule()) {
        // That is counted among the rules.
        return Vec::new();
    }
    // What would be left if the mode were good.
    let rest = check_request(&Call { mode: ROUND, ..call.clone() }).err();
    match (refusal.number, rest) {
        (4..=8, Some(rest)) if bad_mode => vec![(MODE_TOO, rest.number - 4)],
        (4, _) => of_columns(call),
        (5, None) => {
            let [two, three, greatest] = [2, 3, u32::MAX].map(|mode| call.mode == mode);
            named(MODE, [two, three, greatest, !two && !three && !greatest])
        }
        (8, _) => of_rows(call, refusal.place as usize),
        _ => Vec::new(),
    }
}

/// Wind columns that are unlike the six others, which are alike.
fn of_columns(call: &Call) -> Vec<Sort> {
    let rows = call.x.len();
    let alone = check_request(&Call { winds: None, ..call.clone() });
    let Some(winds) = call.winds.as_ref().filter(|_| alone.err().is_none_or(|r| r.number > 4))
    else {
        return Vec::new();
    };
    let [u, v] = winds.columns().map(Vec::len);
    let ways = |length: usize| {
        let off = [length + 1 == rows, length == rows + 1, length == 0, length > MOST_STATIONS];
        off.map(|off| off && length != rows)
    };
    if u == v {
        return named(BOTH, ways(u).into_iter().take(3));
    }
    let one = |length: usize, other: usize| ways(length).map(|off| off && other == rows);
    named(COLUMN, one(u, v).into_iter().zip(one(v, u)).flat_map(|(u, v)| [u, v]))
}

/// Rows that are refused by their wind, or by another fault with a bad wind about.
fn of_rows(call: &Call, first: usize) -> Vec<Sort> {
    let Some(winds) = &call.winds else {
        return Vec::new();
    };
    let is_bad = |row: &usize| !is_wind(winds.u[*row], winds.v[*row]);
    let Some(bad) = (0..call.x.len()).find(is_bad) else {
        return Vec::new();
    };
    let other = check_request(&Call { winds: None, ..call.clone() }).err();
    let other = other.map(|refusal| refusal.place as usize);
    let order = other.map(|other| [other == bad, bad < other, other < bad]);
    let mut sorts = named(ORDER, order.unwrap_or_default());
    if other.is_none() {
        sorts.extend(named(ROW[usize::from(call.mode == ALONG_WIND)], faults(winds, bad)));
        sorts.extend(named(AT, [first == 0, first > 0]));
    }
    let verdict = before_first_scan(call, BORDER)[bad];
    sorts.extend((verdict != ACCEPTED).then_some((TO_COME, verdict.into())));
    sorts
}

/// What is wrong with the wind of a row.
fn faults(winds: &Winds, row: usize) -> [bool; 7] {
    let (u, v) = (winds.u[row], winds.v[row]);
    let (low, high) = (*WIND.start() - 1, *WIND.end() + 1);
    let [good_u, good_v] = [u, v].map(|number| WIND.contains(&number));
    let known = [
        u == MISSING && good_v,
        v == MISSING && good_u,
        u == high && good_v,
        u == low && good_v,
        v == high && good_u,
        v == low && good_u,
    ];
    let [a, b, c, d, e, f] = known;
    [a, b, c, d, e, f, !known.contains(&true)]
}
