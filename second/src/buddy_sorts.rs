//! The sorts of buddy checks that a run must not lose, by name and number. A name lists in
//! brackets what its numbers, from 0, stand for. A request is counted once for each sort.
//!
//! Who is near whom, and by what they differ, is gone through once more, scan by scan,
//! unless a request is large. `company_sorts` looks at the stations of a scan.

use crate::call::{Analysis, Buddy, Call, Refusal, Window, WindowAnswer};
use crate::company_sorts::{self, Found};
use crate::refusals::check_request;
use crate::scheme::run;
use crate::sorts::{named, Sort};
use crate::tally::Floor;
use crate::text_sorts::refused_line;
use crate::units::{BUDDY_LIMIT, BUDDY_RADIUS, LISTINGS, MODES, OF_THE_CHECK, ROUND, RULES, STEP};
use crate::verdicts::{ended_in, SET_ASIDE};
use crate::weight_sorts::is_small;
use crate::window::{cut, pick, reach, widened};

const GIVEN: &str = "accepted request with the buddy check (left out, off, off and out of range, \
    on)";
const BESIDE: &str = "accepted request with the check on (in mode 0 under rule 1, rule 2, in mode \
    1 under rule 1, rule 2)";
const ENDS: &str = "accepted check with (B of 1, B of 512, L of 0, L of 2,000,000)";
pub const SCAN: &str = "request with a station that is set aside in scan";
const SCANS: &str = "request with stations set aside (in two scans, in three or more)";
const UNLIKE: &str = "request unlike itself without the check (in grid, support, whom a limit \
    rejects)";
const SMOOTHED: &str = "request unlike itself without the check, with smoothing (off, on)";
const MODED: &str = "request unlike itself without the check (in mode 0 under rule 1, rule 2, in \
    mode 1 under rule 1, rule 2)";
const UNLIKE_INSIDE: &str = "window unlike itself without the check (in grid, in support)";
const REACH: &str = "window that a cut would answer otherwise with a reach of (R alone, B alone, \
    the greater of the two, B in one scan alone, no steps for smoothing, R + B rounded down, one \
    step less)";

const ALONE: &str = "refusal 6 at place 6 (B of 0, of 513, below 0, past 513; L of -1, of \
    2,000,001, farther out; both)";
const TOO: &str = "bad check with a fault too (of results, columns, scan count, mode, rule, scan, \
    first guess, row)";
const OFF_TOO: &str = "check that is off and bad with a fault of (a scan, first guess, row)";

const LINE: &str = "refusal 9 at the line of a check (one number, three, empty, a leading zero, \
    -0, a plus, a word, a strange byte, past i32, another key, before scans, before a scan, \
    among rows, after rows, among stations, doubled, elsewhere, unended, good where a scan is due)";

/// The least of each sort, by its name and numbers in order; those of scans begin at 1.
pub type Least = (&'static str, &'static [u64]);

const ACCEPTED_LEAST: [Least; 8] = [
    (GIVEN, &[2_000, 150, 800, 2_000]),
    (BESIDE, &[600, 500, 500, 380]),
    (ENDS, &[105, 75, 200, 100]),
    (SCAN, &[1_100, 310, 205, 205, 200, 200]),
    (SCANS, &[100, 230]),
    (UNLIKE, &[750, 430, 25]),
    (SMOOTHED, &[450, 310]),
    (MODED, &[220, 180, 200, 135]),
];

const WINDOW_LEAST: [Least; 2] =
    [(UNLIKE_INSIDE, &[630, 300]), (REACH, &[190, 300, 180, 80, 90, 200, 280])];

const REFUSED_LEAST: [Least; 3] = [
    (ALONE, &[18, 18, 13, 12, 18, 18, 10, 12]),
    (TOO, &[12, 11, 12, 13, 13, 26, 50, 33]),
    (OFF_TOO, &[39, 85, 90]),
];

const TEXT_LEAST: [Least; 9] = [
    (GIVEN, &[3_000, 0, 0, 2_100]),
    (BESIDE, &[1_150, 930]),
    (ENDS, &[130, 145, 190, 145]),
    (SCAN, &[860, 380, 310, 300, 300, 285]),
    (SCANS, &[70, 320]),
    (UNLIKE, &[690, 310, 70]),
    (SMOOTHED, &[340, 340]),
    (MODED, &[390, 290]),
    (LINE, &[22, 33, 44, 31, 31, 31, 22, 40, 85, 34, 20, 58, 31, 31, 20, 46, 20, 20, 4]),
];

pub fn floors_of(sorts: &[Least]) -> Vec<Floor> {
    let in_order = |(name, least): &Least| {
        let first = u32::from([SCAN, company_sorts::VERDICT].contains(name));
        let floors = (first..).zip(*least).filter(|(_, least)| **least > 0);
        floors.map(|(number, least)| Floor::times(name, number, *least)).collect::<Vec<_>>()
    };
    sorts.iter().flat_map(in_order).collect()
}

/// The least of each sort in a full run of analyses.
pub fn floors() -> Vec<Floor> {
    let of_calls = [floors_of(&ACCEPTED_LEAST), floors_of(&REFUSED_LEAST)].concat();
    [of_calls, company_sorts::floors()].concat()
}

/// The same in a full run of windows or screens, with what only these have.
pub fn window_floors() -> Vec<Floor> {
    [floors(), floors_of(&WINDOW_LEAST)].concat()
}

/// The same in a full run of texts, which have no mode, and no check that is off.
pub fn text_floors() -> Vec<Floor> {
    [floors_of(&TEXT_LEAST), company_sorts::floors()].concat()
}

/// The real stations are asked for with the check left out and on.
pub fn real_floors() -> Vec<Floor> {
    let given = [(0, 24), (3, 12)].map(|(n, least)| Floor::fixed(GIVEN, n, least));
    [given.to_vec(), set_aside_floors()].concat()
}

pub fn real_text_floors() -> Vec<Floor> {
    let given = [(0, 12), (3, 6)].map(|(n, least)| Floor::fixed(GIVEN, n, least));
    [given.to_vec(), set_aside_floors()].concat()
}

/// They have four scans, and some are set aside in each.
fn set_aside_floors() -> Vec<Floor> {
    [1, 2, 3, 4].map(|n| Floor::fixed(SCAN, n, 1)).to_vec()
}

/// The sorts of an accepted request with the windows that are asked for, if any.
pub fn of_accepted(call: &Call, analysis: &Analysis, windows: &[Window]) -> Vec<Sort> {
    let mut sorts = given(call);
    let Some(check) = call.check() else {
        return sorts;
    };
    let beside = beside(call);
    sorts.push((BESIDE, beside));
    let bounds = [
        check.radius == *BUDDY_RADIUS.start(),
        check.radius == *BUDDY_RADIUS.end(),
        check.limit == *BUDDY_LIMIT.start(),
        check.limit == *BUDDY_LIMIT.end(),
    ];
    sorts.extend(named(ENDS, bounds));
    sorts.extend(by_scan(&analysis.verdict));
    if company_sorts::is_looked_at(call) {
        sorts.extend(Found::of(call).sorts());
        sorts.extend(named(REACH, reached(call, analysis, windows)));
    }
    if is_small(call) {
        sorts.extend(unlike(call, analysis, windows, beside));
    }
    sorts
}

fn given(call: &Call) -> Vec<Sort> {
    let number = match call.buddy {
        None => 0,
        Some(buddy) if buddy.on => 3,
        Some(buddy) if is_good(&buddy) => 1,
        Some(_) => 2,
    };
    vec![(GIVEN, number)]
}

fn is_good(buddy: &Buddy) -> bool {
    BUDDY_RADIUS.contains(&buddy.radius) && BUDDY_LIMIT.contains(&buddy.limit)
}

/// By mode and rule.
fn beside(call: &Call) -> u32 {
    2 * u32::from(call.mode != ROUND) + u32::from(call.rule() == LISTINGS)
}

fn by_scan(verdict: &[u8]) -> Vec<Sort> {
    let mut scans: Vec<u32> = verdict
        .iter()
        .filter(|verdict| **verdict > SET_ASIDE)
        .filter_map(|verdict| ended_in(*verdict).map(|scan| scan as u32 + 1))
        .collect();
    scans.sort_unstable();
    scans.dedup();
    let several = named(SCANS, [scans.len() == 2, scans.len() > 2]);
    scans.into_iter().map(|scan| (SCAN, scan)).chain(several).collect()
}

/// What differs from the same request without the check, at all points and at those of
/// the windows.
fn unlike(call: &Call, analysis: &Analysis, windows: &[Window], beside: u32) -> Vec<Sort> {
    let other = run(&Call { buddy: None, ..call.clone() });
    let rows = analysis.verdict.iter().zip(&other.verdict);
    let by_limit = rows.filter(|(here, _)| **here < SET_ASIDE).any(|(here, there)| here != there);
    let unlike = [other.grid != analysis.grid, other.support != analysis.support, by_limit];
    let mut inside = [false; 2];
    for window in windows {
        let [here, there] = [analysis, &other].map(|of| pick(call.shape(), of, window));
        inside[0] |= here.grid != there.grid;
        inside[1] |= here.support != there.support;
    }
    let [off, on] = [false, true].map(|smooth| unlike[0] && call.smooth == smooth);
    let moded = unlike[0].then_some((MODED, beside));
    let mut sorts = [named(UNLIKE, unlike), named(SMOOTHED, [off, on])].concat();
    sorts.extend(named(UNLIKE_INSIDE, inside));
    sorts.extend(moded);
    sorts
}

/// Reaches that are too short: the steps of all scans, by their radii.
fn too_short(call: &Call) -> [u32; 7] {
    let b = call.check().map_or(0, |check| check.radius.unsigned_abs());
    let radii: Vec<u32> =
        call.radius[..call.scans as usize].iter().map(|radius| radius.unsigned_abs()).collect();
    let step = STEP as u32;
    let smoothing = call.scans * u32::from(call.smooth);
    let sum = |of: &dyn Fn(u32) -> u32| radii.iter().map(|r| of(*r)).sum::<u32>();
    let first = radii.first().map_or(0, |r| (r + b).div_ceil(step) - r.div_ceil(step));
    [
        sum(&|r| r.div_ceil(step)) + smoothing,
        sum(&|_| b.div_ceil(step)) + smoothing,
        sum(&|r| r.max(b).div_ceil(step)) + smoothing,
        sum(&|r| r.div_ceil(step)) + first + smoothing,
        sum(&|r| (r + b).div_ceil(step)),
        sum(&|r| (r + b) / step) + smoothing,
        reach(call) - 1,
    ]
}

/// Which of these a window tells from the right one.
fn reached(call: &Call, analysis: &Analysis, windows: &[Window]) -> [bool; 7] {
    too_short(call).map(|steps| {
        let tells = |window: &&Window| {
            let (part, right) = (widened(call, window, steps), widened(call, window, reach(call)));
            // A grid has two columns and two rows.
            let is_grid = part.left < part.right && part.top < part.bottom;
            let lost = is_grid && part != right;
            lost && from_part(call, window, &part) != pick(call.shape(), analysis, window)
        };
        windows.iter().find(tells).is_some()
    })
}

/// The window's numbers out of a part of the grid around it.
fn from_part(call: &Call, window: &Window, part: &Window) -> WindowAnswer {
    let (left, top) = (window.left - part.left, window.top - part.top);
    let (right, bottom) = (window.right - part.left, window.bottom - part.top);
    let cut = cut(call, part);
    pick(cut.shape(), &run(&cut), &Window::new(left, right, top, bottom))
}

/// The sorts of a refused request.
pub fn of_refused(call: &Call, refusal: &Refusal) -> Vec<Sort> {
    // What would be left if there were no check.
    let bare = Call { buddy: None, ..call.clone() };
    let rest = check_request(&bare).err();
    match call.buddy {
        Some(buddy) if !is_good(&buddy) && buddy.on => of_bad(call, &buddy, refusal, rest),
        Some(buddy) if !is_good(&buddy) => {
            named(OFF_TOO, [6, 7, 8].map(|number| refusal.number == number))
        }
        _ => Vec::new(),
    }
}

/// A bad check by itself, or beside what is tested before it or after it.
fn of_bad(call: &Call, buddy: &Buddy, refusal: &Refusal, rest: Option<Refusal>) -> Vec<Sort> {
    let count = Call { buddy: None, rule: None, mode: ROUND, ..call.clone() };
    let by_count = check_request(&count).err().is_some_and(|rest| rest.number == 5);
    match (refusal.number, rest.map(|rest| rest.number)) {
        (3, _) => vec![(TOO, 0)],
        (4, _) => vec![(TOO, 1)],
        (5, _) if by_count => vec![(TOO, 2)],
        (5, _) if !MODES.contains(&call.mode) => vec![(TOO, 3)],
        (5, _) if !RULES.contains(&call.rule()) => vec![(TOO, 4)],
        (6, _) if refusal.place != OF_THE_CHECK as u32 => vec![(TOO, 5)],
        (6, Some(later @ 7..)) => vec![(TOO, later - 1)],
        (6, None) => named(ALONE, by_itself(buddy)),
        _ => Vec::new(),
    }
}

fn by_itself(buddy: &Buddy) -> [bool; 8] {
    let Buddy { radius, limit, .. } = *buddy;
    let (low, high) = (*BUDDY_RADIUS.start(), *BUDDY_RADIUS.end());
    let (least, most) = (*BUDDY_LIMIT.start(), *BUDDY_LIMIT.end());
    let far = limit < least - 1 || limit > most + 1;
    let both = !BUDDY_RADIUS.contains(&radius) && !BUDDY_LIMIT.contains(&limit);
    let alone = [
        radius == low - 1,
        radius == high + 1,
        radius < low - 1,
        radius > high + 1,
        limit == least - 1,
        limit == most + 1,
        far,
    ];
    let [a, b, c, d, e, f, g] = alone.map(|holds| holds && !both);
    [a, b, c, d, e, f, g, both]
}

/// The sorts of a text that is refused by its form: what is wrong with a check's line, if
/// that is where it is.
pub fn of_text(text: &[u8], refusal: &Refusal) -> Vec<Sort> {
    let Some([before, line, after]) = refused_line(text, refusal) else {
        return Vec::new();
    };
    let sort = match line.strip_prefix(b"buddy=") {
        Some(value) => of_line(value, before, after),
        None if before.starts_with(b"scan=") && is_like_a_check(line) => 9,
        None => return Vec::new(),
    };
    vec![(LINE, sort)]
}

/// By what stands before it and after it, or by its value where that is a scan.
fn of_line(value: &[u8], before: &[u8], after: &[u8]) -> u32 {
    let key = |line: &[u8], key: &[u8]| line.starts_with(key);
    match before {
        before if key(before, b"buddy=") => 15,
        before if key(before, b"row=") && key(after, b"row=") => 12,
        before if key(before, b"row=") => 13,
        before if key(before, b"stations=") || key(before, b"st=") => 14,
        _ if key(after, b"scans=") => 10,
        before if key(before, b"scans=") || key(after, b"scan=") => 11,
        before if !key(before, b"scan=") => 16,
        _ => match value.strip_suffix(b"\n") {
            Some(value) => of_value(value),
            None => 17,
        },
    }
}

fn is_like_a_check(line: &[u8]) -> bool {
    let plain = line.to_ascii_lowercase();
    plain.windows(3).any(|part| [&b"bud"[..], b"udy", b"ddy", b"ody"].contains(&part))
}

/// What is wrong with the value of a check's line.
fn of_value(value: &[u8]) -> u32 {
    let fields: Vec<&[u8]> = value.split(|byte| *byte == b',').collect();
    let digits = |field: &[u8]| !field.is_empty() && field.iter().all(u8::is_ascii_digit);
    let any = |is: &dyn Fn(&[u8]) -> bool| fields.iter().any(|field| is(field));
    let unsigned = |field: &[u8]| digits(field.strip_prefix(b"-").unwrap_or(field));
    let zero_ahead = |digits: &[u8]| digits.len() > 1 && digits.starts_with(b"0");
    // Digits, and a minus before them at most.
    let is_past = |field: &[u8]| String::from_utf8_lossy(field).parse::<i32>().is_err();
    match fields.len() {
        _ if any(&<[u8]>::is_empty) => 2,
        1 => 0,
        3.. => 1,
        _ if value.iter().any(|byte| !byte.is_ascii_graphic()) => 7,
        _ if any(&|field| field == b"-0") => 4,
        _ if any(&|field| field.starts_with(b"+")) => 5,
        _ if any(&|field| !unsigned(field)) => 6,
        _ if any(&|field| zero_ahead(field.strip_prefix(b"-").unwrap_or(field))) => 3,
        _ if any(&|field| is_past(field)) => 8,
        // Nothing is: the text asks for more scans than it has.
        _ => 18,
    }
}
