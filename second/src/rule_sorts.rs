//! The sorts of rules and lone stations that a run must not lose, by name and
//! number. A name lists in brackets what its numbers, from 0, stand for. A request is
//! counted once for each sort.
//!
//! What a station would do if it counted otherwise hangs on its D, so a request under
//! rule 2 is gone through once more, scan by scan. As in `weight_sorts`, one with very
//! many pairs of a point and a station is not.

use crate::call::{Analysis, Call, Refusal, Window};
use crate::refusals::check_request;
use crate::scan::{correct, judge, smoothed, weight, weight_at, Accepted, Sums};
use crate::scheme::run;
use crate::sorts::{named, Sort};
use crate::tally::Floor;
use crate::text_sorts::refused_line;
use crate::units::{
    rounded, ALONG_WIND, BORDER, EQUATIONS, LISTINGS, MODES, RULES, STEP, WEIGHT_SCALE,
};
use crate::verdicts::{before_first_scan, ACCEPTED};
use crate::weight_sorts::is_small;
use crate::window::{pick, reach, rows_on, widened};

const GIVEN: &str = "accepted request with the rule (left out in mode 0, in mode 1, 1 in mode 0, \
    in mode 1, 2 in mode 0, in mode 1)";
const LONE: &str = "point with one station alone inside (in the first scan, later, most of those \
    with support, all of them)";
const WEIGHT: &str = "lone station of a weight of (0, 1 or more without another correction, with \
    another, 10,000)";
const CORRECTION: &str = "lone station that moves a point by its part of D (D negative, positive; \
    by nothing; an exact half up, an exact half down; rounded up, cut; weight·D past i32)";
const BESIDE: &str = "station with a weight that would be alone but for (one without a weight, \
    more of them, others with a weight)";
pub const RIM: &str = "lone station that would not be alone with one at R²";
const VERDICT: &str = "row inside beside one accepted station that would end its being alone, by \
    its verdict";
const POST: &str = "lone post that moves a point by its part of D (in the first scan, later)";
const WIND: &str = "lone station in mode 1 that moves a point by its part of D (with the round \
    weight, with a stretched one)";
const CHANGE: &str = "point that a later scan leaves (with one station for more, with none for \
    one)";
const UNLIKE: &str =
    "request unlike itself under rule 1 (in grid, support, verdicts, support of a \
    later scan)";
const SMOOTHED: &str = "request unlike itself under rule 1, with smoothing (off, on)";
const SCANS: &str = "request unlike itself under rule 1, of so many scans";
const UNLIKE_INSIDE: &str = "window unlike itself under rule 1 (in grid, in support)";
const CUT: &str = "cut under rule 2 with a lone station (at a point of the window, at one of the \
    cut, at one that only the cut leaves alone with it)";

const ALONE: &str = "refusal 5 by the rule alone (0, 3, u32's greatest, 1 or 2 in fewer bits, \
    another)";
const TOO: &str = "bad rule with a fault too (of results, columns, scan count, mode, plan, first \
    guess, row)";

const LINE: &str = "refusal 9 at the line of a rule (0, 3, another number, a leading zero, a minus, \
    a plus, empty, a word, past u32, more fields, a strange byte, another key, before smooth, after \
    scans, doubled, elsewhere, unended)";

/// The least of each sort, by its name and numbers in order; those of verdicts and of
/// scans begin at 1.
type Least = (&'static str, &'static [u64]);

const ACCEPTED_LEAST: [Least; 13] = [
    (GIVEN, &[980, 900, 550, 520, 1_250, 1_150]),
    (LONE, &[1_700, 1_050, 1_500, 750]),
    (WEIGHT, &[95, 1_000, 1_600, 500]),
    (CORRECTION, &[1_250, 1_200, 580, 45, 80, 1_450, 1_550, 75]),
    (BESIDE, &[70, 25, 1_000]),
    (RIM, &[180]),
    (
        VERDICT,
        &[190, 175, 160, 105, 115, 0, 0, 0, 0, 0, 200, 50, 40, 28, 28, 22, 0, 0, 0, 0, 55, 3],
    ),
    (POST, &[480, 370]),
    (WIND, &[450, 540]),
    (CHANGE, &[420, 850]),
    (UNLIKE, &[1_600, 100, 130, 100]),
    (SMOOTHED, &[800, 800]),
    (SCANS, &[160, 400, 190, 80, 100, 300]),
];

const WINDOW_LEAST: [Least; 2] = [(UNLIKE_INSIDE, &[1_400, 70]), (CUT, &[1_350, 1_350, 90])];

const REFUSED_LEAST: [Least; 2] =
    [(ALONE, &[17, 17, 12, 14, 8]), (TOO, &[12, 11, 12, 12, 12, 6, 6])];

const TEXT_LEAST: [Least; 13] = [
    (GIVEN, &[1_800, 0, 1_090, 0, 2_400]),
    (LONE, &[1_450, 1_300, 1_200, 640]),
    (WEIGHT, &[85, 1_000, 1_450, 560]),
    (CORRECTION, &[1_050, 1_030, 660, 40, 85, 1_250, 1_350, 50]),
    (BESIDE, &[75, 25, 1_000]),
    (RIM, &[200]),
    (
        VERDICT,
        &[240, 235, 205, 135, 115, 0, 0, 0, 0, 0, 230, 95, 50, 45, 45, 30, 0, 0, 0, 0, 60, 2],
    ),
    (POST, &[340, 250]),
    (CHANGE, &[620, 1_150]),
    (UNLIKE, &[1_450, 170, 260, 170]),
    (SMOOTHED, &[700, 700]),
    (SCANS, &[120, 300, 160, 155, 160, 500]),
    (LINE, &[26, 26, 24, 26, 32, 27, 33, 44, 43, 26, 31, 41, 61, 56, 26, 19, 20]),
];

fn floors_of(sorts: &[Least]) -> Vec<Floor> {
    let in_order = |(name, least): &Least| {
        let first = u32::from([VERDICT, SCANS].contains(name));
        let floors = (first..).zip(*least).filter(|(_, least)| **least > 0);
        floors.map(|(number, least)| Floor::times(name, number, *least)).collect::<Vec<_>>()
    };
    sorts.iter().flat_map(in_order).collect()
}

/// The least of each sort in a full run of analyses.
pub fn floors() -> Vec<Floor> {
    [floors_of(&ACCEPTED_LEAST), floors_of(&REFUSED_LEAST)].concat()
}

/// The same in a full run of windows or screens, with what only these have.
pub fn window_floors() -> Vec<Floor> {
    [floors(), floors_of(&WINDOW_LEAST)].concat()
}

/// The same in a full run of texts, which have no mode, and no rule that is another.
pub fn text_floors() -> Vec<Floor> {
    floors_of(&TEXT_LEAST)
}

/// The real stations are asked for with the rule left out and under rule 2, in both
/// modes; texts in mode 0 alone.
pub fn real_floors() -> Vec<Floor> {
    [0, 1, 4, 5].map(|n| Floor::fixed(GIVEN, n, 6)).to_vec()
}

pub fn real_text_floors() -> Vec<Floor> {
    [0, 4].map(|n| Floor::fixed(GIVEN, n, 6)).to_vec()
}

/// The sorts of an accepted request with the windows that are asked for, if any.
pub fn of_accepted(call: &Call, analysis: &Analysis, windows: &[Window]) -> Vec<Sort> {
    let given = 2 * call.rule.unwrap_or(0) + call.mode;
    let mut sorts = vec![(GIVEN, given)];
    if call.rule() == LISTINGS && is_small(call) {
        let found = Found::of(call, windows);
        sorts.extend(found.sorts());
        sorts.extend(unlike(call, analysis, windows));
    }
    sorts
}

/// What differs from the same request under rule 1, at all points and at those of the
/// windows.
fn unlike(call: &Call, analysis: &Analysis, windows: &[Window]) -> Vec<Sort> {
    let other = run(&Call { rule: Some(EQUATIONS), ..call.clone() });
    let later = |of: &Analysis| of.support.iter().map(|byte| byte & !1).collect::<Vec<u8>>();
    let unlike = [
        other.grid != analysis.grid,
        other.support != analysis.support,
        other.verdict != analysis.verdict,
        later(&other) != later(analysis),
    ];
    let mut inside = [false; 2];
    for window in windows {
        let [here, there] = [analysis, &other].map(|of| pick(call.shape(), of, window));
        inside[0] |= here.grid != there.grid;
        inside[1] |= here.support != there.support;
    }
    let [off, on] = [false, true].map(|smooth| unlike[0] && call.smooth == smooth);
    let scans = unlike[0].then_some((SCANS, call.scans));
    let mut sorts = [named(UNLIKE, unlike), named(SMOOTHED, [off, on])].concat();
    sorts.extend(named(UNLIKE_INSIDE, inside));
    sorts.extend(scans);
    sorts
}

/// A row that is inside the radius of a point, or on its rim.
struct Near {
    row: usize,
    d2: i64,
    /// None where it takes no part, or no part any more.
    accepted: Option<Accepted>,
}

/// What a request under rule 2 has been found to have.
#[derive(Default)]
struct Found {
    lone: [bool; 2],
    supported: usize,
    supported_alone: usize,
    weight: [bool; 4],
    correction: [bool; 8],
    beside: [bool; 3],
    rim: bool,
    verdicts: [bool; 27],
    post: [bool; 2],
    wind: [bool; 2],
    change: [bool; 2],
    cut: [bool; 3],
}

impl Found {
    fn of(call: &Call, windows: &[Window]) -> Self {
        let mut found = Found::default();
        let (mut grid, mut verdict) = (call.first_guess.clone(), before_first_scan(call, BORDER));
        let mut support = vec![0; grid.len()];
        let mut counts = vec![usize::MAX; grid.len()];
        for scan in 0..call.scans as usize {
            let accepted = judge(call, &grid, scan, &mut verdict);
            found.scan(call, scan, &accepted, &verdict, windows, &mut counts);
            correct(call, scan, WEIGHT_SCALE, &accepted, &mut grid, &mut support);
            if call.smooth {
                grid = smoothed(call.shape(), &grid);
            }
        }
        found
    }

    fn scan(
        &mut self,
        call: &Call,
        scan: usize,
        accepted: &[Accepted],
        verdict: &[u8],
        windows: &[Window],
        counts: &mut [usize],
    ) {
        let rows: Vec<usize> = (0..verdict.len()).filter(|row| verdict[*row] == ACCEPTED).collect();
        let r2 = i64::from(call.radius[scan]).pow(2);
        let nx = call.shape().nx;
        let mut alone = vec![None; counts.len()];
        for (point, count) in counts.iter_mut().enumerate() {
            let (x, y) = (STEP * (point % nx) as i64, STEP * (point / nx) as i64);
            let near: Vec<Near> = (0..verdict.len())
                .filter_map(|row| {
                    let (dx, dy) = (i64::from(call.x[row]) - x, i64::from(call.y[row]) - y);
                    let far = dx.abs().max(dy.abs()) > i64::from(call.radius[scan]);
                    let d2 = if far { r2 + 1 } else { dx * dx + dy * dy };
                    let at = rows.binary_search(&row).ok();
                    (d2 <= r2).then(|| Near { row, d2, accepted: at.map(|at| accepted[at]) })
                })
                .collect();
            alone[point] = self.point(call, scan, (x, y), &near, verdict);
            let inside = near.iter().filter(|one| one.d2 < r2 && one.accepted.is_some()).count();
            if *count != usize::MAX {
                self.change[0] |= *count > 1 && inside == 1;
                self.change[1] |= *count == 1 && inside == 0;
            }
            *count = inside;
        }
        for window in windows {
            self.in_cut(call, scan, window, &rows, counts, &alone);
        }
    }

    /// One point in one scan: the row that is alone there and moves it by a part of its
    /// D alone, if there is one.
    fn point(
        &mut self,
        call: &Call,
        scan: usize,
        (x, y): (i64, i64),
        near: &[Near],
        verdict: &[u8],
    ) -> Option<usize> {
        let r2 = i64::from(call.radius[scan]).pow(2);
        let inside = near.iter().filter(|one| one.d2 < r2);
        let heard: Vec<(&Near, Accepted, i64)> = inside
            .filter_map(|one| {
                let station = one.accepted?;
                let w = weight_at(WEIGHT_SCALE, r2, station.offset(x, y), station.wind);
                Some((one, station, w))
            })
            .collect();
        let weighted = heard.iter().filter(|(_, _, w)| *w > 0);
        let weighted: Vec<_> = weighted.collect();
        self.supported += usize::from(!weighted.is_empty());
        if weighted.len() > 1 {
            let sums = Sums {
                inside: heard.len(),
                weights: heard.iter().map(|one| one.2).sum(),
                weighted: heard.iter().map(|one| one.2 * one.1.difference).sum(),
            };
            let right = sums.correction(LISTINGS, WEIGHT_SCALE);
            self.beside[2] |= right != rounded(sums.weighted, WEIGHT_SCALE);
        }
        let (one, station, w) = match (&heard[..], &weighted[..]) {
            ([only], _) => only,
            // Others are inside, and have no weight.
            (_, [only]) => {
                let otherwise = part(only.2, only.1.difference) != only.1.difference;
                self.beside[0] |= otherwise && heard.len() == 2;
                self.beside[1] |= otherwise && heard.len() > 2;
                return None;
            }
            _ => return None,
        };
        self.lone[scan.min(1)] = true;
        self.supported_alone += usize::from(*w > 0);
        let d = station.difference;
        let otherwise = *w > 0 && part(*w, d) != d;
        self.weight[0] |= *w == 0;
        self.weight[1] |= 0 < *w && *w < WEIGHT_SCALE && !otherwise;
        self.weight[2] |= otherwise;
        self.weight[3] |= *w == WEIGHT_SCALE;
        if !otherwise {
            return None;
        }
        self.moves(*w, d);
        self.beside(near, r2, verdict);
        let is_post = !call.shape().holds(call.x[one.row], call.y[one.row]);
        self.post[scan.min(1)] |= is_post;
        if call.mode == ALONG_WIND {
            let stretched = *w > weight(r2, one.d2);
            self.wind[usize::from(stretched)] = true;
        }
        Some(one.row)
    }

    /// A lone station that moves a point by its part of D, which is not D.
    fn moves(&mut self, w: i64, d: i64) {
        let (product, change) = (w * d, part(w, d));
        let rest = product.abs() % WEIGHT_SCALE;
        let half = 2 * rest == WEIGHT_SCALE;
        let holds = [
            d < 0,
            d > 0,
            change == 0,
            half && d > 0,
            half && d < 0,
            2 * rest > WEIGHT_SCALE,
            0 < 2 * rest && 2 * rest < WEIGHT_SCALE,
            i32::try_from(product).is_err(),
        ];
        self.correction.iter_mut().zip(holds).for_each(|(found, holds)| *found |= holds);
    }

    /// What stands beside a lone station and would end its being alone.
    fn beside(&mut self, near: &[Near], r2: i64, verdict: &[u8]) {
        for one in near {
            self.rim |= one.d2 == r2 && one.accepted.is_some();
            if one.d2 < r2 && one.accepted.is_none() {
                self.verdicts[usize::from(verdict[one.row])] = true;
            }
        }
    }

    /// The cut of a window: lone stations at its points, and points that have more
    /// stations inside on the whole grid, where some are outside the cut.
    fn in_cut(
        &mut self,
        call: &Call,
        scan: usize,
        window: &Window,
        accepted: &[usize],
        counts: &[usize],
        alone: &[Option<usize>],
    ) {
        let cut = widened(call, window, reach(call));
        let own = rows_on(call, &cut);
        let own: Vec<usize> = own.into_iter().filter(|row| accepted.contains(row)).collect();
        let r2 = i64::from(call.radius[scan]).pow(2);
        for j in cut.top..=cut.bottom {
            for i in cut.left..=cut.right {
                let point = call.shape().index(i as usize, j as usize);
                let in_window = (window.left..=window.right).contains(&i)
                    && (window.top..=window.bottom).contains(&j);
                self.cut[0] |= in_window && alone[point].is_some();
                self.cut[1] |= !in_window && alone[point].is_some();
                if counts[point] > 1 && !self.cut[2] {
                    let (x, y) = (STEP * i64::from(i), STEP * i64::from(j));
                    let inside = own.iter().filter(|row| {
                        let dx = i64::from(call.x[**row]) - x;
                        let dy = i64::from(call.y[**row]) - y;
                        dx * dx + dy * dy < r2
                    });
                    self.cut[2] |= inside.count() == 1;
                }
            }
        }
    }

    fn sorts(self) -> Vec<Sort> {
        let (all, alone) = (self.supported, self.supported_alone);
        let [first, later] = self.lone;
        let lone = [first, later, 2 * alone > all, alone > 0 && alone == all];
        let verdicts = (0..).zip(self.verdicts).filter(|(_, found)| *found);
        let verdicts: Vec<Sort> = verdicts.map(|(number, _)| (VERDICT, number)).collect();
        [
            named(LONE, lone),
            named(WEIGHT, self.weight),
            named(CORRECTION, self.correction),
            named(BESIDE, self.beside),
            named(RIM, [self.rim]),
            verdicts,
            named(POST, self.post),
            named(WIND, self.wind),
            named(CHANGE, self.change),
            named(CUT, self.cut),
        ]
        .concat()
    }
}

/// A weight's part of a difference.
fn part(weight: i64, difference: i64) -> i64 {
    rounded(weight * difference, WEIGHT_SCALE)
}

/// The sorts of a refused request.
pub fn of_refused(call: &Call, refusal: &Refusal) -> Vec<Sort> {
    let rule = call.rule();
    if RULES.contains(&rule) {
        return Vec::new();
    }
    // What would be left if the rule were good.
    let rest = check_request(&Call { rule: None, ..call.clone() }).err().map(|rest| rest.number);
    let mode = !MODES.contains(&call.mode);
    let moded = Call { rule: None, mode: *MODES.start(), ..call.clone() };
    let count = check_request(&moded).err().is_some_and(|rest| rest.number == 5);
    match (refusal.number, rest) {
        (3, _) => vec![(TOO, 0)],
        (4, _) => vec![(TOO, 1)],
        (5, Some(5)) if count => vec![(TOO, 2)],
        (5, Some(5)) if mode => vec![(TOO, 3)],
        (5, Some(later)) if later > 5 => vec![(TOO, later - 2)],
        (5, None) => {
            let fewer = [rule % 256, rule % (1 << 16), rule % (1 << 24), rule % (1 << 31)];
            let known = [
                rule == 0,
                rule == 3,
                rule == u32::MAX,
                fewer.iter().any(|bits| RULES.contains(bits)),
            ];
            let [a, b, c, d] = known;
            named(ALONE, [a, b, c, d, !known.contains(&true)])
        }
        _ => Vec::new(),
    }
}

/// The sorts of a text that is refused by its form: what is wrong with a rule's line,
/// if that is where it is.
pub fn of_text(text: &[u8], refusal: &Refusal) -> Vec<Sort> {
    let Some([before, line, _]) = refused_line(text, refusal) else {
        return Vec::new();
    };
    let sort = match line.strip_prefix(b"rule=") {
        Some(_) if before.starts_with(b"rule=") => 14,
        Some(_) if before.starts_with(b"time=") || before.starts_with(b"age=") => 12,
        Some(_) if before.starts_with(b"scans=") => 13,
        Some(_) if !before.starts_with(b"smooth=") => 15,
        Some(value) => match value.strip_suffix(b"\n") {
            Some(value) => of_value(value),
            None => 16,
        },
        None if before.starts_with(b"smooth=") && is_like_a_rule(line) => 11,
        None => return Vec::new(),
    };
    vec![(LINE, sort)]
}

fn is_like_a_rule(line: &[u8]) -> bool {
    let plain = line.to_ascii_lowercase();
    plain.windows(3).any(|part| [&b"rul"[..], b"ule", b"rol"].contains(&part))
}

/// What is wrong with the value of a rule's line.
fn of_value(value: &[u8]) -> u32 {
    let digits = |value: &[u8]| !value.is_empty() && value.iter().all(u8::is_ascii_digit);
    let number = String::from_utf8_lossy(value).parse::<u128>().ok();
    match value {
        b"" => 6,
        b"0" => 0,
        b"3" => 1,
        [b'0', rest @ ..] if digits(rest) => 3,
        [b'-', rest @ ..] if digits(rest) => 4,
        [b'+', rest @ ..] if digits(rest) => 5,
        value if digits(value) && number.is_some_and(|number| number <= u32::MAX.into()) => 2,
        value if digits(value) => 8,
        value if value.contains(&b',') => 9,
        value if value.iter().all(|byte| byte.is_ascii_graphic()) => 7,
        _ => 10,
    }
}
