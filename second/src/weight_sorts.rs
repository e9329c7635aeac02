//! The sorts of weights that a run must not lose, by name and number. A name
//! lists in brackets what its numbers, from 0, stand for. A request is counted
//! once for each sort, however many of its points and stations are of it.
//!
//! Which stations a scan accepted is read off the verdicts, so nothing is run
//! again for the pairs of a point and a station. Where a request has very many
//! of them, its points are sampled, and it is not run in hundredths: the few
//! big requests would take most of the time, and three in four of them differ.

use crate::call::{Analysis, Call, Window};
use crate::scan::{weight_at, Accepted};
use crate::scheme::run_in;
use crate::sorts::{floors_in_order, floors_of, named, Sort};
use crate::tally::Floor;
use crate::units::{HUNDREDTHS, RADIUS, STEP, WEIGHT_SCALE};
use crate::verdicts::{ended_in, ACCEPTED};

const GAINED: &str = "point with support that hundredths would not give (in the first scan, later)";
const GAINED_INSIDE: &str =
    "point of the window with support that hundredths would not give (in the first scan, later)";
const SILENT: &str =
    "station inside the radius without a weight (alone there, beside others with one)";
const ALIKE: &str =
    "stations alike in hundredths at a point, and not in ten-thousandths (both 0, both above 0)";
const RIM: &str = "station at a squared distance of R² and (-1, 0, 1)";
const EXACT: &str = "weight of exactly (1, 10,000)";
const FRACTION: &str =
    "weight whose fraction is (a half or more past it, whole away from the station)";
const WIDE: &str =
    "station inside a radius (with 20,000 R² past u32, 10,000(R² - d2) past u32, of 1,024)";
const UNLIKE: &str = "request unlike its run in hundredths (in grid, support, verdicts)";

/// The most pairs of a point and a station, over all scans, that are looked at
/// in a request; with more of them points are left out.
const MOST_PAIRS: usize = 8_000;

/// The least of each sort in a full run of analyses or texts.
pub fn floors() -> Vec<Floor> {
    floors_with(150)
}

/// The same in a full run of windows or screens, with what only these have. In
/// few of them does a verdict hang on the last digits of a weight.
pub fn window_floors() -> Vec<Floor> {
    [floors_with(35), floors_of(&[(GAINED_INSIDE, 2, 300)])].concat()
}

fn floors_with(other_verdicts: u64) -> Vec<Floor> {
    let sorts: [(&str, &[u64]); 8] = [
        (GAINED, &[350, 350]),
        (SILENT, &[70, 70]),
        (ALIKE, &[120, 700]),
        (RIM, &[120, 1_200, 350]),
        (EXACT, &[80, 1_500]),
        (FRACTION, &[3_000, 600]),
        (WIDE, &[300, 300, 250]),
        (UNLIKE, &[1_300, 700, other_verdicts]),
    ];
    sorts.into_iter().flat_map(|(name, least)| floors_in_order(name, least)).collect()
}

/// The sorts of an accepted request.
pub fn of_accepted(call: &Call, analysis: &Analysis) -> Vec<Sort> {
    let whole = Window::new(0, call.nx - 1, 0, call.ny - 1);
    let mut sorts = Found::of(call, &whole, &analysis.verdict).sorts();
    if is_small(call) {
        let old = run_in(call, HUNDREDTHS);
        let unlike = [
            old.grid != analysis.grid,
            old.support != analysis.support,
            old.verdict != analysis.verdict,
        ];
        sorts.extend(named(UNLIKE, unlike));
    }
    sorts
}

/// The sorts of an accepted window query, with the verdicts of the whole grid.
pub fn of_window(call: &Call, window: &Window, verdict: &[u8]) -> Vec<Sort> {
    named(GAINED_INSIDE, Found::of(call, window, verdict).gained)
}

fn pairs(call: &Call, part: &Window) -> usize {
    part.area() * call.x.len() * call.scans as usize
}

/// Whether a request has so few pairs of a point and a station that it may be run
/// once more.
pub fn is_small(call: &Call) -> bool {
    let whole = Window::new(0, call.nx - 1, 0, call.ny - 1);
    pairs(call, &whole) <= MOST_PAIRS
}

/// The stations that a scan, counted from 0, accepted: those that no scan up to it
/// rejected or set aside. What they differ by is no matter here.
fn accepted_in(call: &Call, scan: usize, verdict: &[u8]) -> Vec<Accepted> {
    let rows = (0..verdict.len()).filter(|row| {
        let verdict = verdict[*row];
        verdict == ACCEPTED || ended_in(verdict).is_some_and(|last| last > scan)
    });
    rows.map(|row| Accepted::new(call, row, 0)).collect()
}

/// A point in a scan, counted from 0, and the accepted stations that along y are
/// no farther away than the radius.
pub struct Around<'a> {
    pub scan: usize,
    pub r2: i64,
    pub x: i64,
    pub y: i64,
    pub near: &'a [Accepted],
}

/// Looks at the points of a part of the grid in every scan, or at a sample of them.
pub fn each_point(call: &Call, part: &Window, verdict: &[u8], mut look: impl FnMut(Around)) {
    // As many times fewer points each way as takes the pairs below the most.
    let stride = (pairs(call, part) / MOST_PAIRS).isqrt() + 1;
    for scan in 0..call.scans as usize {
        let radius = i64::from(call.radius[scan]);
        let accepted = accepted_in(call, scan, verdict);
        for y in (part.top..=part.bottom).step_by(stride).map(|j| STEP * i64::from(j)) {
            let beside = |station: &&Accepted| (station.y - y).abs() <= radius;
            let near: Vec<Accepted> = accepted.iter().filter(beside).copied().collect();
            for x in (part.left..=part.right).step_by(stride).map(|i| STEP * i64::from(i)) {
                look(Around { scan, r2: radius * radius, x, y, near: &near });
            }
        }
    }
}

/// What a request has been found to have.
#[derive(Default)]
struct Found {
    gained: [bool; 2],
    silent: [bool; 2],
    alike: [bool; 2],
    rim: [bool; 3],
    exact: [bool; 2],
    fraction: [bool; 2],
    wide: [bool; 3],
}

/// A station's weight at a point inside whose radius it is, and what it would
/// be in hundredths.
#[derive(Clone, Copy, PartialEq, Eq, PartialOrd, Ord)]
struct Heard {
    hundredths: i64,
    weight: i64,
}

impl Found {
    /// What is found at the points of a part of the grid, in every scan.
    fn of(call: &Call, part: &Window, verdict: &[u8]) -> Self {
        let (mut found, mut heard) = (Found::default(), Vec::new());
        each_point(call, part, verdict, |Around { scan, r2, x, y, near }| {
            heard.clear();
            for station in near {
                heard.extend(found.pair(r2, station.offset(x, y), station.wind));
            }
            found.together(scan, &mut heard);
        });
        found
    }

    /// One station at one point. Most are too far away for anything.
    fn pair(&mut self, r2: i64, offset: (i64, i64), wind: Option<(i64, i64)>) -> Option<Heard> {
        let d2 = offset.0 * offset.0 + offset.1 * offset.1;
        if d2 > r2 + 1 {
            return None;
        }
        if d2 >= r2 - 1 && d2 > 0 {
            self.rim[(d2 - r2 + 1) as usize] = true;
        }
        if d2 >= r2 {
            return None;
        }
        let weight = weight_at(WEIGHT_SCALE, r2, offset, wind);
        self.exact[0] |= weight == 1;
        self.exact[1] |= weight == WEIGHT_SCALE;
        if wind.is_none() {
            self.round(r2, d2);
        }
        // A whole part that is cut once more is the whole part in hundredths.
        Some(Heard { hundredths: weight * HUNDREDTHS / WEIGHT_SCALE, weight })
    }

    /// The fraction of a round weight inside the radius.
    fn round(&mut self, r2: i64, d2: i64) {
        let (dividend, divisor) = (WEIGHT_SCALE * (r2 - d2), r2 + d2);
        let rest = dividend % divisor;
        self.fraction[0] |= 2 * rest >= divisor;
        self.fraction[1] |= rest == 0 && d2 > 0;
        let past = |product: i64| product > i64::from(u32::MAX);
        self.wide[0] |= past(2 * WEIGHT_SCALE * r2);
        self.wide[1] |= past(dividend);
        self.wide[2] |= r2 == i64::from(*RADIUS.end()).pow(2);
    }

    /// All stations inside the radius at one point.
    fn together(&mut self, scan: usize, heard: &mut [Heard]) {
        if heard.is_empty() {
            return;
        }
        let supports = heard.iter().any(|one| one.weight > 0);
        let silent = heard.iter().any(|one| one.weight == 0);
        self.gained[scan.min(1)] |= supports && heard.iter().all(|one| one.hundredths == 0);
        self.silent[0] |= silent && heard.len() == 1;
        self.silent[1] |= silent && supports;
        if self.alike == [true; 2] {
            return;
        }
        heard.sort_unstable();
        for pair in heard.windows(2).filter(|pair| pair[0].hundredths == pair[1].hundredths) {
            let above = usize::from(pair[0].hundredths > 0);
            self.alike[above] |= pair[0].weight != pair[1].weight;
        }
    }

    fn sorts(self) -> Vec<Sort> {
        [
            named(GAINED, self.gained),
            named(SILENT, self.silent),
            named(ALIKE, self.alike),
            named(RIM, self.rim),
            named(EXACT, self.exact),
            named(FRACTION, self.fraction),
            named(WIDE, self.wide),
        ]
        .concat()
    }
}
