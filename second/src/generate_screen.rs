//! The generator of screens: how many windows, how they lie to one another, and
//! how many points their cuts have together. `damage_screen` breaks them.

use crate::call::{Call, Screen, Window};
use crate::damage;
use crate::damage_screen::{self, COLUMNS};
use crate::generate::{
    big_call, edge_call, flavour, order_limits, small_call, tune_by_digits, tune_limits,
    untuned_call, whole_grid, Flavour, BIG_EVERY, TURNS,
};
use crate::generate_links::{befriend_or_link, will_link};
use crate::generate_posts::{add_beyond_a_corner, move_beyond_the_cut};
use crate::generate_rims::add_on_a_rim;
use crate::generate_rules::add_round_a_point;
use crate::generate_window::{
    any_window, lay_chain, move_to_the_cut, one, roomy_call, shortened, small_window, some,
};
use crate::generate_winds::blow;
use crate::rng::Rng;
use crate::screen::points;
use crate::units::MOST_WINDOWS;
use crate::window::{reach, widened};

/// The arguments of a screen.
pub fn screen(seed: u64, index: u64) -> (Call, Screen) {
    let mut rng = Rng::for_case(seed, 6, index);
    let rng = &mut rng;
    match flavour(index, &[1, COLUMNS, 2, 2, 3, 4, 5, 6, 7, 8]) {
        // Big ones are eight times as rare as for single windows: most of them
        // cost the archive a whole analysis.
        Flavour::Big => match index / BIG_EVERY % 8 {
            0 => with_screen(rng, big_call, few_or_many),
            1 => with_screen(rng, largest_call, all_points),
            _ => valid(rng),
        },
        Flavour::Valid => valid(rng),
        Flavour::Boundary => {
            let (mut call, screen) = with_screen(rng, edge_call, any_number);
            damage::push_to_bounds(rng, &mut call);
            (call, screen)
        }
        Flavour::Damaged(number) => {
            let lay: Lay = match number {
                2 if rng.one_in(2) => sixteen,
                2 => any_number,
                _ => rng.pick(&[none as Lay, any_number, any_number, any_number]),
            };
            let (call, screen) = with_screen(rng, small_call, lay);
            damage_screen::break_screen(rng, call, screen, number, index / TURNS)
        }
    }
}

type Make = fn(&mut Rng) -> Call;
type Lay = fn(&mut Rng, &Call) -> Vec<Window>;

fn valid(rng: &mut Rng) -> (Call, Screen) {
    let lays: [(Make, Lay); 16] = [
        (small_call, none),
        (roomy_call, |rng, call| any_of(rng, call, 1)),
        (roomy_call, |rng, call| any_of(rng, call, 2)),
        (roomy_call, several),
        (roomy_call, sixteen),
        (near_call, small_ones),
        (wide_call, sixteen_small),
        (roomy_call, equal),
        (roomy_call, shifted),
        (near_call, single_points),
        (roomy_call, one_wide),
        (roomy_call, one_high),
        (small_call, all_points),
        (near_call, |rng, call| with_cuts_of(rng, call, call.first_guess.len())),
        (near_call, |rng, call| with_cuts_of(rng, call, call.first_guess.len() + 1)),
        (near_call, |rng, call| with_cuts_of(rng, call, call.first_guess.len() - 1)),
    ];
    let (make, lay) = rng.pick(&lays);
    with_screen(rng, make, lay)
}

/// A call with good windows, results as long as all of them, stations by the
/// edges of the cuts of some, and winds.
fn with_screen(rng: &mut Rng, make: Make, lay: Lay) -> (Call, Screen) {
    let mut call = make(rng);
    let linked = will_link(rng, &mut call);
    let windows = lay(rng, &call);
    let chained = !windows.is_empty() && rng.one_in(2);
    if !windows.is_empty() {
        let [one, another] = [rng.pick(&windows), rng.pick(&windows)];
        move_to_the_cut(rng, &mut call, &one);
        move_beyond_the_cut(rng, &mut call, &another);
        add_on_a_rim(rng, &mut call, &one);
    }
    if chained {
        let window = rng.pick(&windows);
        lay_chain(rng, &mut call, &window);
    } else {
        tune_limits(rng, &mut call);
        order_limits(rng, &mut call);
    }
    add_beyond_a_corner(rng, &mut call);
    let whole = whole_grid(&call);
    let part = windows.first().unwrap_or(&whole);
    add_round_a_point(rng, &mut call, part);
    befriend_or_link(rng, &mut call, part, linked && !windows.is_empty());
    blow(rng, &mut call, part);
    tune_by_digits(rng, &mut call);
    (call.grid_len, call.support_len) = (points(&windows), points(&windows));
    (call, Screen::new(&windows))
}

/// A call whose cuts are small against its grid: few scans, short radii.
fn near_call(rng: &mut Rng) -> Call {
    let call = roomy_call(rng);
    shortened(rng, call, &[1, 1, 2, 3], &[64, 64, 100, 128])
}

/// The same on a grid with room for the cuts of sixteen windows.
fn wide_call(rng: &mut Rng) -> Call {
    let (nx, ny) = (rng.between(16, 36) as u32, rng.between(16, 36) as u32);
    let call = untuned_call(rng, nx, ny, 12);
    shortened(rng, call, &[1, 1, 2, 3], &[64, 64, 100, 128])
}

/// The largest grid there is, with few stations, so that sixteen times all of
/// it takes little time.
fn largest_call(rng: &mut Rng) -> Call {
    let mut call = untuned_call(rng, 64, 64, 8);
    call.radius.iter_mut().for_each(|radius| *radius = 1 + *radius / 4);
    call
}

fn none(_: &mut Rng, _: &Call) -> Vec<Window> {
    Vec::new()
}

fn any_of(rng: &mut Rng, call: &Call, number: usize) -> Vec<Window> {
    (0..number).map(|_| any_window(rng, call.nx, call.ny)).collect()
}

fn several(rng: &mut Rng, call: &Call) -> Vec<Window> {
    let number = rng.between(3, MOST_WINDOWS as i32 - 1) as usize;
    any_of(rng, call, number)
}

fn sixteen(rng: &mut Rng, call: &Call) -> Vec<Window> {
    any_of(rng, call, MOST_WINDOWS)
}

/// One window or more, mostly few.
fn any_number(rng: &mut Rng, call: &Call) -> Vec<Window> {
    let any = 1 + rng.below(MOST_WINDOWS);
    let number = rng.pick(&[1, 2, 3, any, MOST_WINDOWS]);
    any_of(rng, call, number)
}

/// On a big grid: some windows whose cuts are mostly small, or any sixteen.
fn few_or_many(rng: &mut Rng, call: &Call) -> Vec<Window> {
    match rng.below(4) {
        0 => sixteen(rng, call),
        _ => small_ones(rng, call),
    }
}

fn small_ones(rng: &mut Rng, call: &Call) -> Vec<Window> {
    let number = 2 + rng.below(MOST_WINDOWS - 1);
    (0..number).map(|_| small_window(rng, call.nx, call.ny)).collect()
}

fn sixteen_small(rng: &mut Rng, call: &Call) -> Vec<Window> {
    (0..MOST_WINDOWS).map(|_| small_window(rng, call.nx, call.ny)).collect()
}

/// The same window again and again, and now and then another between.
fn equal(rng: &mut Rng, call: &Call) -> Vec<Window> {
    let window = any_window(rng, call.nx, call.ny);
    let mut windows = vec![window; 2 + rng.below(MOST_WINDOWS - 1)];
    if rng.one_in(2) {
        let at = rng.below(windows.len());
        windows[at] = any_window(rng, call.nx, call.ny);
    }
    windows
}

/// Windows of one size, each a step beside the one before, back and forth.
fn shifted(rng: &mut Rng, call: &Call) -> Vec<Window> {
    let first = small_window(rng, call.nx, call.ny);
    let room = if rng.one_in(2) { call.nx - 1 - first.right } else { 0 };
    let depth = call.ny - 1 - first.bottom;
    let step = |step: u32| {
        let (dx, dy) = (step % (room + 1), step % (depth + 1));
        Window::new(first.left + dx, first.right + dx, first.top + dy, first.bottom + dy)
    };
    let mut windows: Vec<Window> = (0..2 + rng.up_to(14)).map(step).collect();
    if rng.one_in(2) {
        windows.reverse();
    }
    windows
}

fn single_points(rng: &mut Rng, call: &Call) -> Vec<Window> {
    let number = rng.pick(&[2, 5, MOST_WINDOWS, MOST_WINDOWS]);
    let mut point = || {
        let ((i, _), (j, _)) = (one(rng, call.nx), one(rng, call.ny));
        Window::new(i, i, j, j)
    };
    (0..number).map(|_| point()).collect()
}

fn one_wide(rng: &mut Rng, call: &Call) -> Vec<Window> {
    let mut column = || {
        let ((i, _), (top, bottom)) = (one(rng, call.nx), some(rng, call.ny));
        Window::new(i, i, top, bottom)
    };
    [column(), column(), column(), column()].to_vec()
}

fn one_high(rng: &mut Rng, call: &Call) -> Vec<Window> {
    let mut row = || {
        let ((left, right), (j, _)) = (some(rng, call.nx), one(rng, call.ny));
        Window::new(left, right, j, j)
    };
    [row(), row(), row(), row()].to_vec()
}

/// The whole grid sixteen times.
fn all_points(_: &mut Rng, call: &Call) -> Vec<Window> {
    vec![Window::new(0, call.nx - 1, 0, call.ny - 1); MOST_WINDOWS]
}

/// Two windows or more whose cuts have exactly so many points together, in any
/// order; where none are found, any windows.
fn with_cuts_of(rng: &mut Rng, call: &Call, asked: usize) -> Vec<Window> {
    for _ in 0..30 {
        let (mut windows, mut rest) = (Vec::new(), asked);
        let most = rng.pick(&[1, 3, MOST_WINDOWS - 1]);
        for _ in 0..1 + rng.below(most) {
            let window = small_window(rng, call.nx, call.ny);
            let cut = widened(call, &window, reach(call)).area();
            if cut < rest {
                rest -= cut;
                windows.push(window);
            }
        }
        if let (false, Some(last)) = (windows.is_empty(), with_a_cut_of(rng, call, rest)) {
            let at = rng.below(windows.len() + 1);
            windows.insert(at, last);
            return windows;
        }
    }
    several(rng, call)
}

/// A window whose cut has so many points, if there is one.
fn with_a_cut_of(rng: &mut Rng, call: &Call, asked: usize) -> Option<Window> {
    let steps = reach(call);
    let (across, down) = (spans(call.nx, steps), spans(call.ny, steps));
    let widths: Vec<usize> = down.iter().map(|span| span.cut).collect();
    let fits =
        |span: &&Span| asked.is_multiple_of(span.cut) && widths.contains(&(asked / span.cut));
    let across: Vec<Span> = across.iter().filter(fits).copied().collect();
    if across.is_empty() {
        return None;
    }
    let Span { first: left, last: right, cut } = rng.pick(&across);
    let down: Vec<Span> = down.into_iter().filter(|span| span.cut == asked / cut).collect();
    let Span { first: top, last: bottom, .. } = rng.pick(&down);
    Some(Window::new(left, right, top, bottom))
}

/// The two ends of a window along one axis, and the points of its cut there.
#[derive(Clone, Copy)]
struct Span {
    first: u32,
    last: u32,
    cut: usize,
}

fn spans(side: u32, steps: u32) -> Vec<Span> {
    let ends = (0..side).flat_map(|first| (first..side).map(move |last| (first, last)));
    let span = |(first, last): (u32, u32)| {
        let end = (last + steps).min(side - 1);
        Span { first, last, cut: (end - first.saturating_sub(steps)) as usize + 1 }
    };
    ends.map(span).collect()
}
