//! The generator of window queries: where the window lies, and which stations
//! stand by the edge of its cut or beyond it.

use crate::call::{Call, Window};
use crate::damage;
use crate::generate::{
    big_call, edge_call, flavour_of, guess_at, order_limits, push_station, small_call,
    tune_by_digits, tune_limits, untuned_call, Flavour, TURNS,
};
use crate::generate_buddies::near_at_hand;
use crate::generate_links::{befriend_or_link, will_link};
use crate::generate_posts::{add_beyond_a_corner, move_beyond_the_cut};
use crate::generate_rims::add_on_a_rim;
use crate::generate_rules::add_round_a_point;
use crate::generate_winds::blow;
use crate::rng::Rng;
use crate::scan::weight;
use crate::units::{STEP, VALUE};
use crate::window::{reach, widened};

/// More often than other requests windows are big: only there is a cut much smaller than
/// the grid.
const BIG_EVERY: u64 = 41;

/// The arguments of a window query.
pub fn window(seed: u64, index: u64) -> (Call, Window) {
    let mut rng = Rng::for_case(seed, 2, index);
    let rng = &mut rng;
    match flavour_of(index, &[1, 2, 3, 4, 5, 6, 7, 8], BIG_EVERY) {
        Flavour::Big => {
            let small: Place = small_window;
            let place = rng.pick(&[small, small, small, any_window]);
            with_window(rng, big_call, place)
        }
        Flavour::Valid => with_window(rng, roomy_call, any_window),
        Flavour::Boundary => {
            let (mut call, window) = with_window(rng, edge_call, any_window);
            damage::push_to_bounds(rng, &mut call);
            (call, window)
        }
        Flavour::Damaged(number) => {
            let (mut call, window) = with_window(rng, small_call, any_window);
            match number {
                2 => return damage::bad_window(rng, call, window, index / TURNS),
                3 => damage::break_window_results(rng, &mut call),
                _ => damage::break_call(rng, &mut call, number, index / TURNS),
            }
            (call, window)
        }
    }
}

/// A call with a good window, results as long as it, stations by the edges of
/// its cut, and winds.
fn with_window(rng: &mut Rng, make: fn(&mut Rng) -> Call, place: Place) -> (Call, Window) {
    let mut call = make(rng);
    let linked = will_link(rng, &mut call);
    let window = place(rng, call.nx, call.ny);
    move_to_the_cut(rng, &mut call, &window);
    move_beyond_the_cut(rng, &mut call, &window);
    add_on_a_rim(rng, &mut call, &window);
    if rng.one_in(2) {
        lay_chain(rng, &mut call, &window);
    } else {
        tune_limits(rng, &mut call);
        order_limits(rng, &mut call);
    }
    add_beyond_a_corner(rng, &mut call);
    add_round_a_point(rng, &mut call, &window);
    befriend_or_link(rng, &mut call, &window, linked);
    blow(rng, &mut call, &window);
    tune_by_digits(rng, &mut call);
    call.grid_len = window.area();
    call.support_len = window.area();
    (call, window)
}

/// A call on a grid with room around the cuts of its windows, mostly: short
/// radii and few scans. A station or two more than chains need.
pub fn roomy_call(rng: &mut Rng) -> Call {
    if rng.one_in(4) {
        return small_call(rng);
    }
    let nx = rng.between(6, 26) as u32;
    let ny = rng.between(6, 26) as u32;
    let stations = rng.pick(&[0, 2, 8, 20]);
    let call = untuned_call(rng, nx, ny, stations);
    shortened(rng, call, &[1, 2, 3, 6], &[64, 100, 128, 200, 400])
}

/// The call with at most one of these numbers of scans, and radii at most one
/// of these, that of its check too.
pub fn shortened(rng: &mut Rng, mut call: Call, scans: &[usize], radii: &[i32]) -> Call {
    let (all, most) = (call.scans as usize, rng.pick(scans));
    call.radius.drain(all.min(most)..all);
    call.limit.drain(all.min(most)..all);
    call.scans = all.min(most) as u32;
    let longest = rng.pick(radii);
    call.radius.iter_mut().for_each(|radius| *radius = (*radius).min(longest));
    near_at_hand(&mut call, longest.min(128));
    call
}

type Place = fn(&mut Rng, u32, u32) -> Window;

/// Any good window, the special places often.
pub fn any_window(rng: &mut Rng, nx: u32, ny: u32) -> Window {
    let (across, down) = match rng.below(12) {
        0 => ((0, nx - 1), (0, ny - 1)),
        1 | 2 => (to_the_border(rng, nx), to_the_border(rng, ny)),
        3 => (to_the_border(rng, nx), between_borders(rng, ny)),
        4 => (between_borders(rng, nx), to_the_border(rng, ny)),
        5 => (one(rng, nx), some(rng, ny)),
        6 => (some(rng, nx), one(rng, ny)),
        7 | 8 => (one(rng, nx), one(rng, ny)),
        _ => (some(rng, nx), some(rng, ny)),
    };
    Window::new(across.0, across.1, down.0, down.1)
}

/// A window of at most five points each way, wherever it lies.
pub fn small_window(rng: &mut Rng, nx: u32, ny: u32) -> Window {
    let (across, down) = match rng.below(4) {
        0 => (to_the_border(rng, nx), to_the_border(rng, ny)),
        1 => (one(rng, nx), one(rng, ny)),
        _ => (between_borders(rng, nx), between_borders(rng, ny)),
    };
    Window::new(across.0, across.1, down.0, down.1)
}

/// The two ends along one axis, of a window that lies on a border.
fn to_the_border(rng: &mut Rng, side: u32) -> (u32, u32) {
    let width = rng.up_to((side - 1).min(4));
    rng.pick(&[(0, width), (side - 1 - width, side - 1)])
}

/// On no border, where the grid is wide enough for that.
fn between_borders(rng: &mut Rng, side: u32) -> (u32, u32) {
    if side < 3 {
        return one(rng, side);
    }
    let first = 1 + rng.up_to(side - 3);
    (first, first + rng.up_to((side - 2 - first).min(4)))
}

pub fn one(rng: &mut Rng, side: u32) -> (u32, u32) {
    let only = rng.up_to(side - 1);
    (only, only)
}

pub fn some(rng: &mut Rng, side: u32) -> (u32, u32) {
    let first = rng.up_to(side - 1);
    let most = rng.pick(&[6, side]);
    (first, first + rng.up_to((side - 1 - first).min(most)))
}

/// Moves some stations to the edges of the cut, and one unit to either side
/// of them. Half of those report about what the first guess has there.
pub fn move_to_the_cut(rng: &mut Rng, call: &mut Call, window: &Window) {
    let cut = widened(call, window, reach(call));
    for row in 0..call.x.len() {
        let (across, down) = (rng.one_in(6), rng.one_in(6));
        if across {
            call.x[row] = near_edge(rng, cut.left, cut.right);
        }
        if down {
            call.y[row] = near_edge(rng, cut.top, cut.bottom);
        }
        if (across || down) && rng.one_in(2) {
            let guess = guess_at(call, call.x[row], call.y[row]);
            call.value[row] = in_range(guess + rng.between(-100, 100));
        }
    }
}

fn near_edge(rng: &mut Rng, low: u32, high: u32) -> i32 {
    64 * rng.pick(&[low, high]) as i32 + rng.pick(&[-1, 0, 1])
}

fn in_range(value: i32) -> i32 {
    value.clamp(*VALUE.start(), *VALUE.end())
}

/// A station for each scan, in a line from the window to an edge of its cut.
/// The last scan hears the first of them, and each scan before it the next
/// one out, about as far as its radius goes: what the outermost reports gets
/// to the window in the last scan only, and a shorter cut has lost it.
pub fn lay_chain(rng: &mut Rng, call: &mut Call, window: &Window) {
    let Some((mut x, mut y, dx, dy)) = way_out(rng, call, window) else {
        return;
    };
    let scans = call.scans as usize;
    if !rng.one_in(4) {
        // A station that is rejected ends the chain.
        call.limit[..scans].fill(2_000_000);
    }
    for scan in (0..scans).rev() {
        let radius = call.radius[scan];
        let smoothing = if call.smooth { 64 } else { 0 };
        let far = smoothing + farthest_heard(rng, radius);
        let step = smoothing + 64 * ((radius + 63) / 64);
        let (at_x, at_y) = (x + far * dx, y + far * dy);
        let deviation = rng.between(1_000, 400_000) * rng.pick(&[-1, 1]);
        push_station(call, at_x, at_y, in_range(guess_at(call, at_x, at_y) + deviation));
        (x, y) = (x + step * dx, y + step * dy);
    }
}

/// A point of the window's edge, and the direction from there to an edge of
/// the cut that is not the grid's border.
pub fn way_out(rng: &mut Rng, call: &Call, window: &Window) -> Option<(i32, i32, i32, i32)> {
    let cut = widened(call, window, reach(call));
    let at = |end: u32| 64 * end as i32;
    let column = at(window.left + rng.up_to(window.right - window.left));
    let row = at(window.top + rng.up_to(window.bottom - window.top));
    let ways = [
        (cut.left > 0, (at(window.left), row, -1, 0)),
        (cut.right < call.nx - 1, (at(window.right), row, 1, 0)),
        (cut.top > 0, (column, at(window.top), 0, -1)),
        (cut.bottom < call.ny - 1, (column, at(window.bottom), 0, 1)),
    ];
    let open: Vec<_> = ways.into_iter().filter(|way| way.0).map(|way| way.1).collect();
    if open.is_empty() {
        return None;
    }
    Some(rng.pick(&open))
}

/// How far from a point, along a grid line, a station stands that has a weight
/// there: past the radius's last whole step, if it has one there.
fn farthest_heard(rng: &mut Rng, radius: i32) -> i32 {
    let square = |size: i32| i64::from(size) * i64::from(size);
    let heard = |distance: &i32| weight(square(radius), square(*distance)) > 0;
    let farthest = (0..radius).rev().find(heard).unwrap_or(0);
    let step = STEP as i32;
    let past = (radius - 1) / step * step + 1;
    rng.between(past.min(farthest), farthest)
}
