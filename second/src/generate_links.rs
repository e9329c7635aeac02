//! The generator of windows that hang on neighbours far out: a station that the window
//! hears, and one of its neighbours as far from it as the check goes. A cut that goes by
//! the radius alone has lost that neighbour, and keeps the station.

use crate::call::{Call, Window};
use crate::generate_buddies::{befriend, near_at_hand, set_limit};
use crate::generate_company::way;
use crate::generate_rules::{drop_inside, lengthen, push};
use crate::generate_window::way_out;
use crate::rng::Rng;
use crate::scan::weight;
use crate::units::{LIMIT, MOST_STATIONS, STEP};

/// Plans of links have at most so many scans: what a station differs by is told to the
/// next scan, and hardly to another.
const MOST_SCANS: usize = 2;

/// So short are the radii of plans and checks that a grid has room for two links.
const RADII: [i32; 5] = [40, 64, 70, 100, 200];
const SHORT: [i32; 5] = [30, 40, 64, 70, 100];

/// Cuts the plan of some requests with a check to what links have, and says whether it
/// did.
pub fn will_link(rng: &Rng, call: &mut Call) -> bool {
    let rng = &mut rng.beside().beside().beside().beside().beside();
    let linked = call.check().is_some_and(|check| check.radius > 3) && rng.below(5) < 2;
    if linked {
        let scans = rng.pick(&[1, MOST_SCANS]);
        lengthen(call, scans);
        call.radius.truncate(scans);
        call.limit.truncate(scans);
        call.scans = scans as u32;
        // What supports a point is not smoothed, so that the second scan tells less.
        call.smooth &= scans == 1 || rng.one_in(4);
        let radii = if scans == 1 { RADII } else { SHORT };
        let (longest, farthest) = (rng.pick(&radii), rng.pick(&radii));
        call.radius.iter_mut().for_each(|radius| *radius = (*radius).min(longest));
        near_at_hand(call, farthest);
    }
    linked
}

/// Gives a request links where it was cut to what these have, and company otherwise.
pub fn befriend_or_link(rng: &Rng, call: &mut Call, window: &Window, linked: bool) {
    if linked {
        lay_links(&mut rng.beside().beside().beside().beside(), call, window);
    } else {
        befriend(rng, call, window);
    }
}

/// A station of a link, with the neighbour beyond it and one beside it, and what they
/// differ by.
struct Link {
    station: (i32, i32),
    beyond: (i32, i32),
    beside: (i32, i32),
    differ: [i32; 3],
}

/// A link for each scan, from the window to an edge of its cut. In the first scan the
/// outermost station is set aside for its neighbours' sake, and is heard if the one beyond
/// it is lost. Then the neighbours of the next one differ by something else than it does.
fn lay_links(rng: &mut Rng, call: &mut Call, window: &Window) {
    let Some(way @ (mut x, mut y, dx, dy)) = way_out(rng, call, window) else {
        return;
    };
    let (scans, radius) = (call.scans as usize, call.check().map_or(1, |check| check.radius));
    if call.x.len() + 3 * scans > MOST_STATIONS {
        return;
    }
    let mut links = Vec::new();
    for scan in (0..scans).rev() {
        // Smoothing tells what a point is moved by, and not what supports it.
        let smoothing = if call.smooth && scan == 0 { STEP as i32 } else { 0 };
        let far = smoothing + as_far_as_heard(rng, call.radius[scan]);
        links.push(link(rng, call, (x, y), far, way, scan == 0));
        // The far side of the cell that the neighbour beyond is in.
        let steps = (far + radius - 1 + 63) / 64;
        (x, y) = (x + 64 * steps * dx, y + 64 * steps * dy);
    }
    // Nobody else speaks where they stand, or where they are heard.
    let quiet = radius.max(call.radius[0]) + STEP as i32;
    drop_inside(call, (way.0, way.1), call.radius[0]);
    for link in &links {
        [link.station, link.beyond].iter().for_each(|place| drop_inside(call, *place, quiet));
    }
    call.limit[..scans].fill(*LIMIT.end());
    set_limit(call, rng.pick(&[0, 0, 1, 5]));
    for Link { station, beyond, beside, differ } in links {
        let places = [station, beyond, beside];
        places.iter().zip(differ).for_each(|(place, d)| push(call, *place, d));
    }
}

/// The greatest distance at which a station has a weight, or a little less.
fn as_far_as_heard(rng: &mut Rng, radius: i32) -> i32 {
    let square = |size: i32| i64::from(size) * i64::from(size);
    let heard = |distance: &i32| weight(square(radius), square(*distance)) > 0;
    let farthest = (0..radius).rev().find(heard).unwrap_or(0);
    rng.between(farthest - farthest.min(2), farthest)
}

fn link(
    rng: &mut Rng,
    call: &Call,
    (x, y): (i32, i32),
    far: i32,
    (_, _, dx, dy): (i32, i32, i32, i32),
    first: bool,
) -> Link {
    let near = call.check().map_or(0, |check| check.radius - 1);
    let (x, y) = (x + far * dx, y + far * dy);
    let side = rng.pick(&[-1, 1]) * near;
    let odd = rng.between(50_000, 400_000) * way(call, (x, y));
    let any = rng.between(-400, 400);
    let alike = rng.pick(&[0, 0, 0, any]);
    Link {
        station: (x, y),
        beyond: (x + near * dx, y + near * dy),
        beside: (x + side * dy, y + side * dx),
        differ: if first { [odd, 0, 0] } else { [alike; 3] },
    }
}
