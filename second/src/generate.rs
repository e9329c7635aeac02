//! The seeded generator: calls, each valid, heavy with bounds, or damaged by a
//! schedule over the index. `generate_window` and `generate_screen` place windows
//! on such calls, `generate_text` writes them out as texts, `generate_posts` sets
//! stations beyond the border, `generate_rims` some at the rim of a radius,
//! `generate_rules` some that are alone with a point or nearly so,
//! `generate_buddies` some that agree or disagree with those near them, and
//! `generate_winds` gives them winds, which no text has; `generate_query` makes
//! readings and summaries, and `generate_field` single fields.

use crate::call::{Call, Window};
use crate::damage;
use crate::generate_buddies::{any_buddy, befriend, near_at_hand};
use crate::generate_posts::beyond;
use crate::generate_rims::add_on_a_rim;
use crate::generate_rules::{add_round_a_point, any_rule, thin_out};
use crate::generate_winds::blow;
use crate::rng::Rng;
use crate::scan::{difference, rounded_at};
use crate::scheme::{run, run_in};
use crate::units::{DEFAULT_AGE, HUNDREDTHS, LIMIT, MISSING, NO_END, VALUE};
use crate::weight_sorts::is_small;

/// Every so many indices a request is big: both sides 48 or more and at least
/// 300 stations. A little more than the floor asks for, since they are slow.
pub const BIG_EVERY: u64 = 55;
/// The flavours come round in turns of this length.
pub const TURNS: u64 = 24;
const BOUNDARY_TURNS: u64 = 5;
const DIGITS_EVERY: usize = 40;

pub enum Flavour {
    Big,
    Valid,
    Boundary,
    /// The refusal number that the damage aims at.
    Damaged(u32),
}

pub fn flavour(index: u64, damages: &[u32]) -> Flavour {
    flavour_of(index, damages, BIG_EVERY)
}

/// The same where big requests come another number of indices apart.
pub fn flavour_of(index: u64, damages: &[u32], big_every: u64) -> Flavour {
    if index.is_multiple_of(big_every) {
        return Flavour::Big;
    }
    let turn = index % TURNS;
    match damages.get(turn as usize) {
        Some(number) => Flavour::Damaged(*number),
        None if turn < damages.len() as u64 + BOUNDARY_TURNS => Flavour::Boundary,
        None => Flavour::Valid,
    }
}

/// The arguments of a whole analysis.
pub fn analysis(seed: u64, index: u64) -> Call {
    let mut rng = Rng::for_case(seed, 1, index);
    let rng = &mut rng;
    let flavour = flavour(index, &[1, 3, 4, 5, 6, 7, 8]);
    let mut call = match flavour {
        Flavour::Big => big_call(rng),
        Flavour::Boundary => boundary_call(rng),
        _ => small_call(rng),
    };
    let whole = whole_grid(&call);
    blow(rng, &mut call, &whole);
    if let Flavour::Damaged(number) = flavour {
        damage::break_call(rng, &mut call, number, index / TURNS);
    }
    call
}

/// All points, as far as there are any.
pub fn whole_grid(call: &Call) -> Window {
    Window::new(0, call.nx.saturating_sub(1), 0, call.ny.saturating_sub(1))
}

pub fn small_call(rng: &mut Rng) -> Call {
    let most = if rng.one_in(12) { 28 } else { 12 };
    let nx = rng.between(2, most) as u32;
    let ny = rng.between(2, most) as u32;
    let stations = if rng.one_in(12) { 0 } else { rng.below(21) };
    call_of(rng, nx, ny, stations)
}

pub fn big_call(rng: &mut Rng) -> Call {
    let nx = rng.between(48, 64) as u32;
    let ny = rng.between(48, 64) as u32;
    let stations = 300 + rng.below(213);
    let mut call = call_of(rng, nx, ny, stations);
    if !rng.one_in(8) {
        // Most big ones have short radii: they take less time and the cuts
        // of their windows are smaller than the grid.
        call.radius.iter_mut().for_each(|radius| *radius = 1 + *radius / 4);
        near_at_hand(&mut call, 100);
    }
    call
}

/// A call whose sides lie within their bounds, some exactly on them.
pub fn edge_call(rng: &mut Rng) -> Call {
    let side = rng.between(2, 12) as u32;
    let nx = rng.pick(&[side, side, side, 2, 64]);
    let ny = rng.pick(&[side, side, side, 2, 3]);
    let (nx, ny) = rng.pick(&[(nx, ny), (ny, nx)]);
    let stations = rng.below(21);
    call_of(rng, nx, ny, stations)
}

pub fn boundary_call(rng: &mut Rng) -> Call {
    let mut call = if rng.one_in(9) {
        // Out of bounds, but with lengths that fit.
        let side = rng.pick(&[0, 1, 65]);
        let (nx, ny) = rng.pick(&[(side, 3), (2, side), (64, side)]);
        call_of(rng, nx, ny, 3)
    } else {
        edge_call(rng)
    };
    damage::push_to_bounds(rng, &mut call);
    call
}

/// A call with plausible values: most stations are accepted at first, and
/// some are rejected in each of the scans.
pub fn call_of(rng: &mut Rng, nx: u32, ny: u32, stations: usize) -> Call {
    let mut call = untuned_call(rng, nx, ny, stations);
    let whole = whole_grid(&call);
    add_on_a_rim(rng, &mut call, &whole);
    tune_limits(rng, &mut call);
    order_limits(rng, &mut call);
    add_round_a_point(rng, &mut call, &whole);
    befriend(rng, &mut call, &whole);
    call.fit_results();
    call
}

/// The same, with limits that do not know the differences.
pub fn untuned_call(rng: &mut Rng, nx: u32, ny: u32, stations: usize) -> Call {
    let beside = &mut rng.beside();
    let spread = rng.pick(&[3, 40, 300, 2_000]);
    let time = rng.pick(&[0, 1_000, 1_000, 1_000, 30_000_000, u32::MAX - 1, u32::MAX]);
    let short = rng.up_to(300);
    let age = rng.pick(&[DEFAULT_AGE, DEFAULT_AGE, 60, 0, short, u32::MAX]);
    let mut call = Call {
        nx,
        ny,
        first_guess: first_guess(rng, nx, ny, spread),
        scans: rng.pick(&[1, 2, 2, 3, 4, 5, 6, 6, 6]),
        smooth: rng.one_in(2),
        rule: any_rule(beside),
        buddy: any_buddy(&mut beside.beside(), spread),
        time,
        age,
        ..Call::default()
    };
    plan(rng, &mut call, spread);
    for _ in 0..stations {
        station(rng, &mut call, spread);
    }
    thin_out(beside, &mut call);
    call.fit_results();
    call
}

/// A slope with some noise. The level 32767 makes that value a proper one
/// that stations report.
fn first_guess(rng: &mut Rng, nx: u32, ny: u32, spread: i32) -> Vec<i32> {
    let level = rng.between(-20_000, 20_000);
    let level = rng.pick(&[level, level, 640, 32_767, 999_000, -999_000]);
    let slope_x = rng.between(-spread, spread);
    let slope_y = rng.between(-spread, spread);
    let noise = rng.pick(&[0, 1, spread]);
    (0..ny as i32)
        .flat_map(|j| (0..nx as i32).map(move |i| level + i * slope_x + j * slope_y))
        .map(|value| clamp_value(value + rng.between(-noise, noise)))
        .collect()
}

fn clamp_value(value: i32) -> i32 {
    value.clamp(*VALUE.start(), *VALUE.end())
}

/// Falling radii, many of them whole grid steps so that d2 = R² occurs, and
/// limits about as wide as the stations' deviations. Some plans let all pass
/// in their first scans, so that the later ones have someone to reject.
fn plan(rng: &mut Rng, call: &mut Call, spread: i32) {
    let any = rng.between(1, 1024);
    let short = rng.between(1, 200);
    let mut radius = rng.pick(&[any, short, short, 64, 96, 128, 192, 320, 1024]);
    let some = rng.up_to(call.scans);
    let lenient = rng.pick(&[0, some]);
    for scan in 0..call.scans {
        call.radius.push(radius);
        let wide = rng.between(spread / 3, 2 * spread);
        let tight = rng.between(0, spread / 3);
        let limit = rng.pick(&[wide, wide, wide, wide, tight, 2 * spread, 2_000_000]);
        call.limit.push(if scan < lenient { 2_000_000 } else { limit });
        let shorter = radius - rng.between(0, radius / 2);
        radius = rng.pick(&[radius, shorter, shorter, (radius / 128 * 64).max(1)]);
    }
    if rng.one_in(6) {
        past_the_scan_count(rng, call);
    }
}

/// Entries past the scan count are not read, so anything may stand there: a
/// radius that rises or no radius at all, a limit out of range, or entries
/// that would do for another scan. The columns need not be equally long.
fn past_the_scan_count(rng: &mut Rng, call: &mut Call) {
    let last = call.radius.last().copied().unwrap_or(1);
    let rising = last.saturating_add(1);
    for _ in 0..rng.below(5) {
        call.radius.push(rng.pick(&[last, last, rising, rising, 0, 1025, i32::MAX, i32::MIN]));
    }
    for _ in 0..rng.below(5) {
        call.limit.push(rng.pick(&[2_000_000, 2_000_000, 3, -1, 2_000_001, i32::MAX, i32::MIN]));
    }
}

fn station(rng: &mut Rng, call: &mut Call, spread: i32) {
    let (x, y) = position(rng, call);
    call.x.push(x);
    call.y.push(y);
    call.value.push(observation(rng, call, x, y, spread));
    minutes(rng, call);
}

fn position(rng: &mut Rng, call: &Call) -> (i32, i32) {
    let (last_x, last_y) = (64 * call.nx as i32 - 64, 64 * call.ny as i32 - 64);
    let x = rng.between(0, last_x.max(0));
    let y = rng.between(0, last_y.max(0));
    match rng.below(28) {
        0..=9 => (x, y),
        10..=14 => (x / 64 * 64, y / 64 * 64),
        15 | 16 => (last_x, y),
        17 | 18 => (x, last_y),
        19 => (x / 64 * 64, y),
        20 | 21 if !call.x.is_empty() => {
            let shared = rng.below(call.x.len());
            (call.x[shared], call.y[shared])
        }
        22..=26 => beyond(rng, call),
        27 => rng.pick(&[(-1_000_000, y), (x, 1_000_000), (-64, -64), (x + 7_000, y)]),
        _ => (0, 0),
    }
}

/// The first guess at the nearest place on the grid, or any value where there
/// are no cells.
pub fn guess_at(call: &Call, x: i32, y: i32) -> i32 {
    let shape = call.shape();
    if shape.nx >= 2 && shape.ny >= 2 {
        rounded_at(shape, &call.first_guess, x, y) as i32
    } else {
        640
    }
}

/// Adds a row that is in service for good and fresh, without a wind.
pub fn push_station(call: &mut Call, x: i32, y: i32, value: i32) {
    call.x.push(x);
    call.y.push(y);
    call.value.push(value);
    call.observed.push(call.time);
    call.from.push(0);
    call.until.push(NO_END);
    call.winds.iter_mut().for_each(|winds| winds.push((MISSING, MISSING)));
}

/// The first guess at the place and a deviation of about the limits' size.
fn observation(rng: &mut Rng, call: &Call, x: i32, y: i32, spread: i32) -> i32 {
    let guess = guess_at(call, x, y);
    let deviation = match rng.below(8) {
        0 => rng.between(-4 * spread, 4 * spread),
        1 => 0,
        _ => rng.between(-spread, spread),
    };
    match rng.below(30) {
        0 | 1 => MISSING,
        2 => 32_767,
        _ => clamp_value(guess + deviation),
    }
}

/// The three minutes of a row: mostly in service and fresh, otherwise meant
/// for verdict 2, 3 or 4. From is always below until.
fn minutes(rng: &mut Rng, call: &mut Call) {
    let time = call.time;
    let fresh = time.saturating_sub(rng.up_to(call.age.min(200)));
    let later = time.saturating_add(1 + rng.up_to(500));
    let earlier = fresh.saturating_sub(rng.up_to(900));
    let open_or_later = rng.pick(&[NO_END, NO_END, later]);
    let stale = time.saturating_sub(call.age).saturating_sub(rng.up_to(2));
    let (observed, from, until) = match rng.below(24) {
        0 => (fresh, earlier, rng.pick(&[fresh, time])),
        1 => (fresh, rng.pick(&[later, time, fresh.saturating_add(1)]), open_or_later),
        2 | 3 => (rng.pick(&[later, time.saturating_add(1)]), earlier, NO_END),
        4 | 5 => (stale, 0, open_or_later),
        _ => (fresh, earlier, open_or_later),
    };
    let until = until.max(1);
    call.observed.push(observed);
    call.from.push(from.min(until - 1));
    call.until.push(until);
}

/// Sets the limits of some scans to exactly the size of a station's D there,
/// or to one less, so that this station stays or goes in that very scan.
pub fn tune_limits(rng: &mut Rng, call: &mut Call) {
    if call.nx < 2 || call.ny < 2 {
        return;
    }
    let last = call.scans - 1;
    let one = rng.up_to(last);
    for scan in [one, last] {
        let before = run(&Call { scans: scan, ..call.clone() });
        let left: Vec<usize> = (0..call.x.len()).filter(|row| before.verdict[*row] == 0).collect();
        if !left.is_empty() && !rng.one_in(4) {
            let row = rng.pick(&left);
            let size = difference(call, &before.grid, row).abs() as i32;
            call.limit[scan as usize] = (size - rng.pick(&[0, 1])).clamp(0, 2_000_000);
        }
    }
}

/// Sets a limit of a few small requests so that a station stays or goes by the last digits
/// of the weights before it. Few do by chance where windows are asked for.
pub fn tune_by_digits(rng: &Rng, call: &mut Call) {
    // The sources before it are those of the rims, the points, the corners, the checks
    // and the links.
    let rng = &mut rng.beside().beside().beside().beside().beside().beside();
    if !rng.one_in(DIGITS_EVERY) || call.scans < 2 || !is_small(call) {
        return;
    }
    let scan = 1 + rng.up_to(call.scans - 2);
    let before = Call { scans: scan, ..call.clone() };
    let (new, old) = (run(&before), run_in(&before, HUNDREDTHS));
    let sizes = (0..call.x.len()).filter(|row| new.verdict[*row] == 0 && old.verdict[*row] == 0);
    let sizes = sizes.map(|row| [&new, &old].map(|of| difference(call, &of.grid, row).abs()));
    let unlike: Vec<i64> =
        sizes.filter(|[new, old]| new != old).map(|[new, old]| new.min(old)).collect();
    if !unlike.is_empty() {
        call.limit[scan as usize] = rng.pick(&unlike).min((*LIMIT.end()).into()) as i32;
    }
}

/// Makes the limits of some plans equal, never falling or never rising. What a
/// post has for D stays the same, so it goes only where a limit falls.
pub fn order_limits(rng: &mut Rng, call: &mut Call) {
    let limits = &mut call.limit[..call.scans as usize];
    let order = rng.below(8);
    for scan in 1..limits.len() {
        limits[scan] = match order {
            0 => limits[0],
            1 => limits[scan].max(limits[scan - 1]),
            2 | 3 => limits[scan].min(limits[scan - 1]),
            _ => limits[scan],
        };
    }
}
