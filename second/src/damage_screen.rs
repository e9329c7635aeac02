//! Screens broken on purpose: columns of ends that are unequal or too long, bad
//! windows, results of the wrong length, and the request's own faults beside
//! them.

use crate::call::{Call, Screen, Window};
use crate::damage::{bad_ends, break_call, break_one, wrong_length, BAD_ENDS};
use crate::damage_buddies::break_by_buddy;
use crate::damage_rules::break_by_rule;
use crate::damage_winds::break_by_wind;
use crate::rng::Rng;
use crate::screen::points;
use crate::units::MOST_WINDOWS;

/// Stands for a fault of the four columns among the refusal numbers that a
/// damage aims at.
pub const COLUMNS: u32 = 16;

/// Breaks a good screen so that it earns a refusal; the ways come in turn.
pub fn break_screen(
    rng: &mut Rng,
    mut call: Call,
    mut screen: Screen,
    number: u32,
    way: u64,
) -> (Call, Screen) {
    match number {
        COLUMNS => {
            break_columns(rng, &call, &mut screen, way);
            break_the_rest(rng, &mut call, 3);
        }
        2 => {
            break_windows(rng, &mut call, &mut screen, way);
            break_the_rest(rng, &mut call, 2);
        }
        3 => break_results(rng, &mut call, &screen.windows(), way),
        // A way to break a rule, a wind or a check comes seldom, and no bad window is to
        // hide it.
        _ if break_by_rule(rng, &mut call, number, way) => (),
        _ if break_by_wind(rng, &mut call, number, way) => (),
        _ if break_by_buddy(rng, &mut call, number, way) => (),
        _ => {
            if rng.one_in(3) {
                break_windows_too(rng, &call, &mut screen);
            }
            break_call(rng, &mut call, number, way);
        }
    }
    (call, screen)
}

/// Windows at fault in a request that is.
fn break_windows_too(rng: &mut Rng, call: &Call, screen: &mut Screen) {
    let (way, windows) = (rng.draw(), screen.left.len());
    match rng.below(3) {
        0 => break_columns(rng, call, screen, way),
        1 => make_too_many(rng, screen),
        _ if windows > 0 => {
            let at = rng.below(windows);
            set_bad(rng, call, screen, at, way);
        }
        _ => (),
    }
}

/// In one of so many screens the request has a fault of its own too; most often one of
/// the two that hardly ever have windows at fault beside them otherwise.
fn break_the_rest(rng: &mut Rng, call: &mut Call, every: usize) {
    if rng.one_in(every) {
        let other = rng.pick(&[1, 3, 4, 5, 5, 6, 7, 8, 8]);
        break_one(rng, call, other);
    }
}

/// Each of the four columns short or long by one, by more, or empty; or all of
/// them too long. A third of the screens have a bad window besides.
fn break_columns(rng: &mut Rng, call: &Call, screen: &mut Screen, way: u64) {
    let windows = screen.left.len();
    let bad = rng.one_in(3);
    // Five and 24 have no divisor in common: those that are too long come early too.
    let way = (way % 24 * 5 % 24) as usize;
    if way >= 20 || windows == 0 && ![1, 3].contains(&(way / 4)) {
        make_too_many(rng, screen);
    } else {
        let column = &mut screen.columns_mut()[way % 4];
        let more = 2 + rng.below(20);
        let length = match way / 4 {
            0 => windows - 1,
            1 => windows + 1,
            2 => windows.saturating_sub(more),
            3 => windows + more,
            _ => 0,
        };
        column.resize(length, rng.up_to(call.nx.min(call.ny)));
    }
    let shortest = screen.windows().len();
    if bad && shortest > 0 {
        let (at, way) = (rng.below(shortest), rng.draw());
        set_bad(rng, call, screen, at, way);
    }
}

/// Good windows, but more than a screen has.
fn make_too_many(rng: &mut Rng, screen: &mut Screen) {
    let mut windows = screen.windows();
    let first = windows.first().copied().unwrap_or(Window::new(0, 0, 0, 0));
    let one_more = MOST_WINDOWS + 1;
    let more = rng.pick(&[one_more + 1, 32, 300]);
    windows.resize(if rng.one_in(3) { more } else { one_more }, first);
    *screen = Screen::new(&windows);
}

/// Bad windows: the first, the last, any one, or two of them. The results are
/// as long as they were, or as what all areas together wrap to.
fn break_windows(rng: &mut Rng, call: &mut Call, screen: &mut Screen, way: u64) {
    let last = screen.left.len() - 1;
    let (any, other) = (rng.below(last + 1), rng.below(last + 1));
    let places = match (way + way / BAD_ENDS) % 6 {
        0 => vec![0],
        1 => vec![last],
        2 if any != other => vec![any, other],
        _ => vec![any],
    };
    for (turn, at) in (way..).zip(places) {
        set_bad(rng, call, screen, at, turn);
    }
    let areas = screen.windows().into_iter().map(|window| window.wrapped_area());
    let wrapped = areas.fold(0, u32::wrapping_add) as usize;
    if rng.one_in(2) && wrapped <= MOST_WINDOWS * call.first_guess.len() {
        (call.grid_len, call.support_len) = (wrapped, wrapped);
    }
}

/// Makes one window of a screen bad in the way whose turn it is.
fn set_bad(rng: &mut Rng, call: &Call, screen: &mut Screen, at: usize, way: u64) {
    let bad = bad_ends(rng, call, screen.windows()[at], way);
    (screen.left[at], screen.right[at]) = (bad.left, bad.right);
    (screen.top[at], screen.bottom[at]) = (bad.top, bad.bottom);
}

/// Grid, support or both one short, one long, as long as the first window or
/// the last one alone, or otherwise wrong.
fn break_results(rng: &mut Rng, call: &mut Call, windows: &[Window], way: u64) {
    let right = points(windows);
    let alone = |window: Option<&Window>| window.map_or(call.first_guess.len(), Window::area);
    let wrong = match way / 3 % 6 {
        0 => right.saturating_sub(1),
        1 => right + 1,
        2 => alone(windows.first()),
        3 => alone(windows.last()),
        4 => call.first_guess.len(),
        _ => wrong_length(rng, right),
    };
    let wrong = if wrong == right { right + 1 } else { wrong };
    match way % 3 {
        0 => call.grid_len = wrong,
        1 => call.support_len = wrong,
        _ => (call.grid_len, call.support_len) = (wrong, wrong),
    }
}
