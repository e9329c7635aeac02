//! The sorts of screens that a run must not lose, by name and number. A name
//! lists in brackets what its numbers, from 0, stand for. What a window of the
//! screen is by itself is counted once for a screen, however many of its windows
//! are that.

use crate::call::{Analysis, Call, Refusal, Screen, Window};
use crate::post_sorts;
use crate::refusals::{check_request, is_on_grid};
use crate::screen::{points, OF_THE_COLUMNS};
use crate::smoothing_sorts;
use crate::sorts::{self, floors_of, named, Sort};
use crate::tally::Floor;
use crate::units::MOST_WINDOWS;
use crate::weight_sorts;
use crate::window::{pick, reach, widened};
use std::ops::RangeInclusive;

const WINDOWS: &str = "accepted screen of so many windows";
const ALIKE: &str =
    "accepted screen with two windows (equal, overlapping, one inside the other, apart)";
const ALL: &str = "accepted screen of two windows or more, all of \
    (all points, one column, one row, one point, the same ends)";
const SIXTEEN_TIMES: &str = "all points sixteen times (of any grid, of 64 by 64)";
const CUTS: &str = "cuts of two windows or more, against the grid's points, together \
    (fewer, one fewer, as many, one more, more)";
const CUTS_OF_SIXTEEN: &str = "cuts of sixteen windows together (at most the grid's points, more)";
const CUT_ALONE: &str = "cut of one window alone (fewer points than the grid, as many)";
const OTHERS: &str =
    "window of the size of the one before it, with other numbers (in grid, in support)";

const PLACE: &str = "refusal 2 at the place";
const SHORT: &str = "one column of ends one short (left, right, top, bottom)";
const LONG: &str = "one column of ends one long (left, right, top, bottom)";
const SHORTER: &str = "one column of ends short by more (left, right, top, bottom)";
const LONGER: &str = "one column of ends long by more (left, right, top, bottom)";
const EMPTY: &str = "one column of ends empty (left, right, top, bottom)";
const TOO_MANY: &str = "four equal columns of too many windows (17, more)";
const COLUMNS_TOO: &str = "refused columns with a bad window too (unequal, over sixteen)";
const BAD_AT: &str = "one bad window of the screen (its only one, first, between, last)";
const TWO_BAD: &str = "two bad windows or more, the first of them (first, later)";
pub const WRAPPED: &str = "bad window with results as long as all areas wrap to";
const REST: &str = "refusal 2 with a fault of the request too, by its number";

const ONE_OFF: &str = "results of the wrong length by one \
    (grid short, grid long, support short, support long, both short, both long)";
const OF_ONE_WINDOW: &str = "results as long as one window alone \
    (grid first, grid last, support first, support last, both first, both last)";
const OF_NONE: &str = "results of zero windows that are not empty (grid, support, both)";
const NONE: &str = "refusal of zero windows, by its number";
const SHAPE_TOO: &str = "refusal 1 with windows at fault (unequal, over sixteen, out of order)";

/// The least of each sort in a full run.
pub fn floors() -> Vec<Floor> {
    [
        floors_of(&ACCEPTED),
        floors_of(&REFUSED),
        numbered(WINDOWS, 0..=0, 200),
        numbered(WINDOWS, 1..=2, 500),
        numbered(WINDOWS, 3..=15, 80),
        numbered(WINDOWS, 16..=16, 1_000),
        numbered(SIXTEEN_TIMES, 0..=0, 200),
        numbered(SIXTEEN_TIMES, 1..=1, 30),
        numbered(PLACE, 0..=0, 250),
        numbered(PLACE, 1..=2, 60),
        numbered(PLACE, 3..=14, 15),
        numbered(PLACE, 15..=15, 60),
        numbered(PLACE, 16..=16, 600),
        numbered(REST, 4..=8, 100),
        numbered(NONE, 1..=1, 60),
        numbered(NONE, 3..=8, 50),
        sorts::accepted_floors(100),
        floors_of(&[(sorts::SMALL_OF_BIG, 1, 25)]),
        sorts::bad_floors(),
        post_sorts::window_floors(30),
    ]
    .concat()
}

fn numbered(name: &'static str, numbers: RangeInclusive<u32>, least: u64) -> Vec<Floor> {
    numbers.map(|number| Floor::times(name, number, least)).collect()
}

const ACCEPTED: [(&str, u32, u64); 6] = [
    (ALIKE, 4, 1_000),
    (ALL, 5, 200),
    (CUTS, 5, 150),
    (CUTS_OF_SIXTEEN, 2, 120),
    (CUT_ALONE, 2, 200),
    (OTHERS, 2, 500),
];

const REFUSED: [(&str, u32, u64); 14] = [
    (SHORT, 4, 20),
    (LONG, 4, 20),
    (SHORTER, 4, 20),
    (LONGER, 4, 20),
    (EMPTY, 4, 30),
    (TOO_MANY, 2, 120),
    (COLUMNS_TOO, 2, 40),
    (BAD_AT, 4, 80),
    (TWO_BAD, 2, 15),
    (WRAPPED, 1, 250),
    (ONE_OFF, 6, 20),
    (OF_ONE_WINDOW, 6, 12),
    (OF_NONE, 3, 25),
    (SHAPE_TOO, 3, 25),
];

/// What screens over the real stations have: no windows, one, three and
/// sixteen, and cuts on both sides of the grid's points.
pub fn real_floors() -> Vec<Floor> {
    let windows = [0, 1, 3, 16].map(|n| Floor::fixed(WINDOWS, n, 6));
    let cuts = [0, 4].map(|n| Floor::fixed(CUTS, n, 6));
    let alone = [0, 1].map(|n| Floor::fixed(CUT_ALONE, n, 1));
    [&windows[..], &cuts, &alone].concat()
}

/// The sorts of an accepted screen, with the whole grid's analysis.
pub fn of_accepted(call: &Call, screen: &Screen, analysis: &Analysis) -> Vec<Sort> {
    let windows = &screen.windows()[..];
    [
        vec![(WINDOWS, windows.len() as u32)],
        alike(windows),
        all_of(call, windows),
        cut_together(call, windows),
        with_other_numbers(call, windows, analysis),
        by_themselves(call, windows, &analysis.verdict),
    ]
    .concat()
}

/// Whether two windows have a point in common, or one all of the other's.
fn alike(windows: &[Window]) -> Vec<Sort> {
    let inside = |a: &Window, b: &Window| {
        a.left >= b.left && a.right <= b.right && a.top >= b.top && a.bottom <= b.bottom
    };
    let meet = |a: &Window, b: &Window| {
        a.left <= b.right && b.left <= a.right && a.top <= b.bottom && b.top <= a.bottom
    };
    let mut found = [false; 4];
    for (at, a) in windows.iter().enumerate() {
        for b in &windows[at + 1..] {
            let (equal, within) = (a == b, inside(a, b) || inside(b, a));
            found[0] |= equal;
            found[1] |= meet(a, b) && !within;
            found[2] |= within && !equal;
            found[3] |= !meet(a, b);
        }
    }
    named(ALIKE, found)
}

fn all_of(call: &Call, windows: &[Window]) -> Vec<Sort> {
    if windows.len() < 2 {
        return Vec::new();
    }
    let all = |holds: &dyn Fn(&Window) -> bool| windows.iter().all(holds);
    let every_point = all(&|window| sorts::sides(call, window) == [true; 4]);
    let column = all(&|window| window.left == window.right);
    let row = all(&|window| window.top == window.bottom);
    let same = all(&|window| *window == windows[0]);
    let point = column && row;
    let sixteen_times = every_point && windows.len() == MOST_WINDOWS;
    let largest = (call.nx, call.ny) == (64, 64);
    [
        named(ALL, [every_point, column && !point, row && !point, point, same]),
        named(SIXTEEN_TIMES, [sixteen_times, sixteen_times && largest]),
    ]
    .concat()
}

/// The points of the cuts together against those of the grid: an implementation
/// may well take one whole analysis for many cuts.
fn cut_together(call: &Call, windows: &[Window]) -> Vec<Sort> {
    let cuts: Vec<Window> = windows.iter().map(|w| widened(call, w, reach(call))).collect();
    let (cut, grid) = (points(&cuts) as i64, call.first_guess.len() as i64);
    let more = cut - grid;
    match windows.len() {
        0 => Vec::new(),
        1 => named(CUT_ALONE, [more < 0, more == 0]),
        windows => {
            let sixteen = windows == MOST_WINDOWS;
            let together = [more < -1, more == -1, more == 0, more == 1, more > 1];
            let of_sixteen = [sixteen && more <= 0, sixteen && more > 0];
            [named(CUTS, together), named(CUTS_OF_SIXTEEN, of_sixteen)].concat()
        }
    }
}

/// Windows that could be exchanged, and only their numbers would tell.
fn with_other_numbers(call: &Call, windows: &[Window], analysis: &Analysis) -> Vec<Sort> {
    let size = |window: &Window| (window.right - window.left, window.bottom - window.top);
    let mut found = [false; 2];
    for pair in windows.windows(2).filter(|pair| size(&pair[0]) == size(&pair[1])) {
        let [one, other] = [0, 1].map(|at| pick(call.shape(), analysis, &pair[at]));
        found[0] |= one.grid != other.grid;
        found[1] |= one.support != other.support;
    }
    named(OTHERS, found)
}

/// What single window queries are counted by, each once.
fn by_themselves(call: &Call, windows: &[Window], verdict: &[u8]) -> Vec<Sort> {
    let each = windows.iter().flat_map(|window| {
        let posts = post_sorts::of_window(call, window, verdict);
        let weights = weight_sorts::of_window(call, window, verdict);
        let smoothing = smoothing_sorts::of_window(call, window);
        [sorts::of_accepted(call, window, verdict), posts, weights, smoothing].concat()
    });
    let mut found: Vec<Sort> = each.collect();
    found.sort_unstable();
    found.dedup();
    found
}

/// The sorts of a refused screen.
pub fn of_refused(call: &Call, screen: &Screen, refusal: &Refusal) -> Vec<Sort> {
    let Refusal { number, place } = *refusal;
    let none = screen.columns().iter().all(|column| column.is_empty());
    let of_none = none.then_some((NONE, number));
    let others = match number {
        1 => with_bad_shape(screen),
        2 => of_two(call, screen, place),
        3 => of_results(call, &screen.windows()),
        _ => Vec::new(),
    };
    of_none.into_iter().chain(others).collect()
}

fn is_unequal(screen: &Screen) -> bool {
    screen.columns().iter().any(|column| column.len() != screen.left.len())
}

fn is_over_sixteen(screen: &Screen) -> bool {
    !is_unequal(screen) && screen.left.len() > MOST_WINDOWS
}

fn with_bad_shape(screen: &Screen) -> Vec<Sort> {
    let out_of_order = |w: &Window| w.left > w.right || w.top > w.bottom;
    let any = screen.windows().iter().any(out_of_order);
    named(SHAPE_TOO, [is_unequal(screen), is_over_sixteen(screen), any])
}

fn of_two(call: &Call, screen: &Screen, place: u32) -> Vec<Sort> {
    let others = if place == OF_THE_COLUMNS as u32 {
        of_columns(call, screen)
    } else {
        of_bad(call, &screen.windows(), place as usize)
    };
    let rest = check_request(call).err().map(|refusal| (REST, refusal.number));
    [vec![(PLACE, place)], others].concat().into_iter().chain(rest).collect()
}

fn of_columns(call: &Call, screen: &Screen) -> Vec<Sort> {
    let lengths = screen.columns().map(Vec::len);
    let bad = screen.windows().iter().any(|window| !is_on_grid(call, window));
    let (unequal, over) = (is_unequal(screen), is_over_sixteen(screen));
    let too = named(COLUMNS_TOO, [unequal && bad, over && bad]);
    let many = if over { lengths[0] - MOST_WINDOWS } else { 0 };
    let many = named(TOO_MANY, [many == 1, many > 1]);
    [too, many, (0..4).flat_map(|column| of_one_column(&lengths, column)).collect()].concat()
}

/// One column that is unlike the three others.
fn of_one_column(lengths: &[usize; 4], column: usize) -> Vec<Sort> {
    let mut others = (0..4).filter(|other| *other != column).map(|other| lengths[other]);
    let asked = others.next().unwrap_or(0);
    let (given, equal) = (lengths[column], others.all(|other| other == asked));
    let (less, more) = (asked.saturating_sub(given), given.saturating_sub(asked));
    let sorts = [
        (SHORT, less == 1),
        (LONG, more == 1),
        (SHORTER, less > 1),
        (LONGER, more > 1),
        (EMPTY, less > 0 && given == 0),
    ];
    let holds = sorts.into_iter().filter(|(_, holds)| *holds && equal);
    holds.map(|(name, _)| (name, column as u32)).collect()
}

fn of_bad(call: &Call, windows: &[Window], first: usize) -> Vec<Sort> {
    let last = windows.len() - 1;
    let bad = windows.iter().filter(|window| !is_on_grid(call, window)).count();
    let at = [last == 0, first == 0, first > 0 && first < last, first == last];
    let at = at.iter().position(|holds| *holds).filter(|_| bad == 1);
    let two = [bad > 1 && first == 0, bad > 1 && first > 0];
    let wrapped = windows.iter().map(Window::wrapped_area).fold(0, u32::wrapping_add) as usize;
    let fits = wrapped == call.grid_len && wrapped == call.support_len;
    [
        at.map(|at| (BAD_AT, at as u32)).into_iter().collect(),
        named(TWO_BAD, two),
        named(WRAPPED, [fits]),
        sorts::of_ends(call, &windows[first]),
    ]
    .concat()
}

fn of_results(call: &Call, windows: &[Window]) -> Vec<Sort> {
    let asked = points(windows);
    let given = [call.grid_len, call.support_len];
    // Which of the results is wrong, the other being right, or both.
    let wrong = |is: &dyn Fn(usize) -> bool| {
        let [grid, support] = given.map(|length| length != asked && is(length));
        let [grid_fits, support_fits] = given.map(|length| length == asked);
        [grid && support_fits, support && grid_fits, grid && support]
    };
    let pairs = |name, one: [bool; 3], other: [bool; 3]| {
        named(name, one.into_iter().zip(other).flat_map(|(one, other)| [one, other]))
    };
    let short = wrong(&|length| length + 1 == asked);
    let long = wrong(&|length| length == asked + 1);
    let alone = |window: Option<&Window>| {
        let area = window.map(Window::area);
        wrong(&|length| Some(length) == area)
    };
    let none = wrong(&|_| windows.is_empty());
    [
        pairs(ONE_OFF, short, long),
        pairs(OF_ONE_WINDOW, alone(windows.first()), alone(windows.last())),
        named(OF_NONE, none),
    ]
    .concat()
}
