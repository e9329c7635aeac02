//! The generator of stations in company: who stands near whom, and what they differ by,
//! so that the verdict of one of them tells how the buddy check is done.

use crate::call::{Call, Window};
use crate::damage::set_rows;
use crate::generate::{guess_at, whole_grid};
use crate::generate_buddies::set_limit;
use crate::generate_rims::offset;
use crate::generate_rules::{bury, drop_inside, lengthen, push};
use crate::rng::Rng;
use crate::units::{BORDER, BUDDY_RADIUS, LIMIT, LISTINGS, MOST_STATIONS};

#[derive(Clone, Copy, PartialEq, Eq)]
enum Company {
    /// One that differs from two others or more; two such, which agree; and one that
    /// differs from two, by what sets it aside, or all three, or none.
    OddOne,
    TwoOdd,
    OddThird,
    /// One between two others that are not near each other, and just near it or just not.
    Chain,
    /// One with a neighbour alone, however much they differ.
    Pair,
    /// As far from the neighbours' sum as may be, and by one farther.
    Exact,
    SamePlace,
    /// A neighbour at a squared distance of B², or just inside.
    Rim,
    /// One near whom a row stands that the scan rejects, or that has no part.
    Rejected,
    Dead(u8),
    /// Posts, whose nearest places are near one another, and they themselves not.
    FarOut,
    /// Posts of which one is set aside before another, which then has too few on its side.
    SetAsideBefore,
    /// Posts of which a scan rejects one; that leaves another with two that it differs from.
    Forsaken,
}

use Company::*;

const ALL: [Company; 45] = [
    OddOne,
    OddOne,
    TwoOdd,
    OddThird,
    OddThird,
    Chain,
    Pair,
    Exact,
    Exact,
    Exact,
    Exact,
    Exact,
    Exact,
    Exact,
    Exact,
    Exact,
    SamePlace,
    SamePlace,
    Rim,
    Rim,
    Rim,
    Rim,
    Rim,
    Rim,
    Rim,
    Rim,
    Rim,
    Rejected,
    Rejected,
    Rejected,
    Dead(3),
    Dead(1),
    Dead(2),
    Dead(3),
    Dead(4),
    Dead(5),
    FarOut,
    FarOut,
    SetAsideBefore,
    SetAsideBefore,
    Forsaken,
    Forsaken,
    Forsaken,
    Forsaken,
    Forsaken,
];

/// The most rows of a company.
const MOST: usize = 8;
/// Limits of checks.
const LIMITS: [i32; 8] = [0, 1, 2, 10, 57, 300, 5_000, 100_000];
/// A check of posts is so short that they fit beyond the border.
const LONGEST_OF_POSTS: i32 = 150;
/// The most scans of a plan, and a check so short that companies for all of them fit.
const SCANS: usize = 6;
const LONGEST_IN_TURN: i32 = 14;
const LONGEST_OF_TWO: i32 = 50;
/// Any shorter, and there are no places near one and far from another.
const SHORTEST: i32 = 8;

/// Where a row stands, and what it differs by.
type Member = ((i32, i32), i32);

/// Adds a company where there is room for one. The limits of the scans that matter are
/// raised so that its members pass.
pub fn gather(rng: &mut Rng, call: &mut Call, part: &Window) {
    if call.x.len() + MOST > MOST_STATIONS {
        return;
    }
    let company = rng.pick(&ALL);
    let is_of_posts = matches!(company, FarOut | SetAsideBefore | Forsaken | Dead(5));
    let frame = if is_of_posts { beyond_a_side(rng, call, part) } else { None };
    match frame {
        Some(frame) => gather_posts(rng, call, &frame, company),
        None if is_of_posts => gather_on_grid(rng, call, part, Exact),
        None => gather_on_grid(rng, call, part, company),
    }
}

fn radius_of(call: &Call) -> i32 {
    call.check().map_or(1, |check| check.radius)
}

/// Makes the check's radius one between these.
fn bound_radius(call: &mut Call, least: i32, most: i32) -> i32 {
    if let Some(buddy) = &mut call.buddy {
        buddy.radius = buddy.radius.clamp(least, most);
    }
    radius_of(call)
}

/// Which way values may go from a place without leaving their range.
pub fn way(call: &Call, place: (i32, i32)) -> i32 {
    if guess_at(call, place.0, place.1) > 0 {
        -1
    } else {
        1
    }
}

/// A place that some point of a part of the grid is not far from.
fn centre(rng: &mut Rng, call: &Call, part: &Window) -> (i32, i32) {
    let most = call.radius[0].clamp(1, 64) - 1;
    let mut along =
        |low: u32, high: u32| 64 * (low + rng.up_to(high - low)) as i32 + rng.between(-most, most);
    (along(part.left, part.right), along(part.top, part.bottom))
}

/// A place near the centre, so that any two such are neighbours.
fn close(rng: &mut Rng, (x, y): (i32, i32), radius: i32) -> (i32, i32) {
    let most = (radius - 1) / 3;
    (x + rng.between(-most, most), y + rng.between(-most, most))
}

fn gather_on_grid(rng: &mut Rng, call: &mut Call, part: &Window, company: Company) {
    if matches!(company, Chain | Rim | Dead(_)) {
        bound_radius(call, SHORTEST, *BUDDY_RADIUS.end());
    }
    let (radius, at) = (radius_of(call), centre(rng, call, part));
    let limit = rng.pick(&LIMITS);
    let members = match company {
        OddOne => odd_ones(rng, at, radius, limit, 1),
        TwoOdd => odd_ones(rng, at, radius, limit, 2),
        OddThird => odd_third(rng, at, radius, limit),
        Chain => chain(rng, at, radius, limit),
        Pair => pair(rng, at, radius, limit),
        SamePlace => same_place(rng, at, limit),
        Rim => at_the_rim(rng, at, radius, limit),
        Rejected => beside_a_rejected(rng, call, at, radius, limit),
        Dead(_) => beside_a_dead(rng, at, radius, limit),
        _ => exact(rng, at, radius, limit),
    };
    drop_inside(call, at, 2 * radius_of(call));
    set_limit(call, limit.into());
    if company == Rejected {
        // It is none in a later scan either.
        lengthen(call, 2);
    }
    if company == SamePlace && rng.one_in(2) {
        // There is nobody else.
        set_rows(call, 0);
    }
    if company != Rejected {
        let widest = members.iter().map(|member| member.1.abs()).max().unwrap_or(0);
        call.limit[0] = call.limit[0].max(widest);
    }
    enter(rng, call, at, members, matches!(company, Dead(_)));
    if let Dead(verdict) = company {
        bury(call, verdict);
    }
}

/// Adds the members, in the turn in which they come or in any other.
fn enter(rng: &mut Rng, call: &mut Call, at: (i32, i32), mut members: Vec<Member>, in_turn: bool) {
    if !in_turn {
        let first = rng.below(members.len());
        members.rotate_left(first);
    }
    let way = way(call, at);
    members.iter().for_each(|(place, d)| push(call, *place, way * d));
}

/// Two others or more, about alike, and so many who differ from them by more than the
/// limit.
fn odd_ones(rng: &mut Rng, at: (i32, i32), radius: i32, limit: i32, odd: usize) -> Vec<Member> {
    let others = 1 + odd + rng.below(3);
    let base = rng.between(0, limit);
    let noise = limit / 8;
    let far = base + limit + 1 + noise + rng.between(0, 2 * limit + 10) * odd as i32;
    let mut members: Vec<Member> = (0..odd).map(|_| (close(rng, at, radius), far)).collect();
    for _ in 0..others {
        let place = close(rng, at, radius);
        members.push((place, base + rng.between(-noise, noise)));
    }
    members
}

/// Past L the third goes, and past 2L the two others as well.
fn odd_third(rng: &mut Rng, at: (i32, i32), radius: i32, limit: i32) -> Vec<Member> {
    let far = rng.pick(&[limit, limit + 1, 2 * limit, 2 * limit + 1, 3 * limit + 5]);
    let mut places = || close(rng, at, radius);
    vec![(places(), far), (places(), 0), (places(), 0)]
}

fn chain(rng: &mut Rng, (x, y): (i32, i32), radius: i32, limit: i32) -> Vec<Member> {
    let near = rng.between((radius + 1) / 2, radius - 1);
    let step = rng.pick(&[near, near, radius]);
    let (dx, dy) = rng.pick(&[(step, 0), (0, step), (-step, 0), (0, -step)]);
    let far = rng.pick(&[limit, limit + 1, 3 * limit + 1]);
    vec![((x - dx, y - dy), 0), ((x, y), far), ((x + dx, y + dy), 0)]
}

fn pair(rng: &mut Rng, at: (i32, i32), radius: i32, limit: i32) -> Vec<Member> {
    let far = rng.between(2 * limit + 2, 8 * limit + 50);
    vec![(close(rng, at, radius), far), (close(rng, at, radius), 0)]
}

/// n·D is n·L from the sum, or one more, with neighbours who differ among themselves.
fn exact(rng: &mut Rng, at: (i32, i32), radius: i32, limit: i32) -> Vec<Member> {
    let (count, more) = (2 + rng.below(4), rng.pick(&[0, 0, 1, 1, 1, 2]));
    let base = rng.between(0, limit.max(4));
    let sign = rng.pick(&[-1, 1]);
    let mut others = vec![base; count];
    others[0] -= sign * more;
    let shift = rng.between(0, limit / 4);
    others[count - 1] += shift;
    others[count - 2] -= shift;
    let mut members = vec![(close(rng, at, radius), base + sign * limit)];
    members.extend(others.into_iter().map(|d| (close(rng, at, radius), d)));
    members
}

fn same_place(rng: &mut Rng, at: (i32, i32), limit: i32) -> Vec<Member> {
    let mut members = exact(rng, at, 1, limit);
    members.extend(rng.one_in(2).then_some((at, limit / 2)));
    members
}

/// One neighbour, and another that is just one or just none.
fn at_the_rim(rng: &mut Rng, (x, y): (i32, i32), radius: i32, limit: i32) -> Vec<Member> {
    let b2 = i64::from(radius).pow(2);
    let inside = offset(rng, (b2 - 1, b2 - 1)).unwrap_or((0, radius - 1));
    let on = offset(rng, (b2, b2)).unwrap_or((0, radius));
    let (dx, dy) = rng.pick(&[inside, on, on, on, (0, radius), (0, radius - 1)]);
    let rim = rng.pick(&[(x + dx, y + dy), (x - dx, y + dy), (x - dy, y - dx), (x + dy, y - dx)]);
    let far = rng.between(limit + 1, 3 * limit + 9);
    let near = close(rng, (x, y), radius / 4);
    // All of a few neighbours are near, or but for the one at the rim there is one.
    let mut members = vec![((x, y), far), (near, 0), (rim, 0)];
    if rng.one_in(3) {
        // With the one at the rim it is set aside, and without it not.
        members[0].1 = limit;
        members[2].1 = -3 * limit - 9;
        members.insert(1, (near, 0));
    }
    members
}

/// One that agrees with those who pass, or has one of these alone. The last is past the
/// limit of the first scan, and what it differs by would set the first aside.
fn beside_a_rejected(
    rng: &mut Rng,
    call: &mut Call,
    at: (i32, i32),
    radius: i32,
    limit: i32,
) -> Vec<Member> {
    let most = (*LIMIT.end() / 4).min(call.limit[0]).max(4 * limit + 8);
    call.limit[0] = most;
    let past = most + 1 + rng.between(0, 50);
    let mut members = vec![(close(rng, at, radius), 0), (close(rng, at, radius), 0)];
    match rng.below(3) {
        0 => members[0].1 = 3 * limit + 3,
        _ => members.push((close(rng, at, radius), 0)),
    }
    members.push((close(rng, at, radius), past));
    members
}

/// One that differs from its neighbour, and would from another, which is to have no part.
fn beside_a_dead(rng: &mut Rng, at: (i32, i32), radius: i32, limit: i32) -> Vec<Member> {
    let far = rng.between(limit + 1, 3 * limit + 9);
    let mut place = || close(rng, at, radius);
    vec![(place(), far), (place(), 0), (place(), 0)]
}

/// A side of the grid as one looks along it: a place, the way along and the way out.
struct Frame {
    place: (i32, i32),
    along: (i32, i32),
    out: (i32, i32),
}

impl Frame {
    fn at(&self, along: i32, out: i32) -> (i32, i32) {
        let of = |place: i32, one: i32, other: i32| place + along * one + out * other;
        (of(self.place.0, self.along.0, self.out.0), of(self.place.1, self.along.1, self.out.1))
    }
}

/// A side that a part of the grid shares with it, at one of the part's points.
fn beyond_a_side(rng: &mut Rng, call: &Call, part: &Window) -> Option<Frame> {
    let mut at = |low: u32, high: u32| 64 * (low + rng.up_to(high - low)) as i32;
    let (x, y) = (at(part.left, part.right), at(part.top, part.bottom));
    let (last_x, last_y) = (64 * call.nx as i32 - 64, 64 * call.ny as i32 - 64);
    let ways = [
        (part.left == 0, (0, y), (0, 1), (-1, 0)),
        (part.right == call.nx - 1, (last_x, y), (0, 1), (1, 0)),
        (part.top == 0, (x, 0), (1, 0), (0, -1)),
        (part.bottom == call.ny - 1, (x, last_y), (1, 0), (0, 1)),
    ];
    let open: Vec<_> = ways.into_iter().filter(|way| way.0).collect();
    if open.is_empty() {
        return None;
    }
    let (_, place, along, out) = rng.pick(&open);
    let along = rng.pick(&[along, (-along.0, -along.1)]);
    Some(Frame { place, along, out })
}

fn gather_posts(rng: &mut Rng, call: &mut Call, frame: &Frame, company: Company) {
    let radius = bound_radius(call, SHORTEST, LONGEST_OF_POSTS);
    // Near one, and two such on different sides of it are not near each other.
    let far = rng.between(radius * 5 / 7 + 1, radius - 1);
    let limit = rng.pick(&LIMITS).max(1);
    match company {
        Forsaken if call.rule() == LISTINGS => leave_alone(rng, call, frame, limit),
        Forsaken => forsake(rng, call, frame, far, limit),
        SetAsideBefore => set_aside_before(rng, call, frame, far, limit),
        Dead(_) => past_the_border(rng, call, frame, radius, limit),
        _ => far_out(rng, call, frame, radius, limit),
    }
}

/// Adds posts, whom every scan up to one lets pass; and it hears the nearest of them. Those
/// are gone who would be near them.
fn post(call: &mut Call, frame: &Frame, members: &[(i32, i32, i32)], limit: i32, last: usize) {
    set_limit(call, limit.into());
    for (along, out, _) in members {
        drop_inside(call, frame.at(*along, *out), radius_of(call));
    }
    let nearest = members.iter().map(|member| member.1).min().unwrap_or(1);
    let widest = members.iter().map(|member| member.2.abs()).max().unwrap_or(0);
    for scan in 0..=last {
        call.limit[scan] = call.limit[scan].max(widest);
        call.radius[scan] = call.radius[scan].max((nearest + 40).min(300));
    }
    let way = way(call, frame.at(0, 0));
    for (along, out, d) in members {
        push(call, frame.at(*along, *out), way * d);
    }
}

/// The first has three neighbours whose sum is right; in a scan the limit rejects one, and
/// the two that are left it differs from. The others have no neighbour but the first.
fn forsake(rng: &mut Rng, call: &mut Call, frame: &Frame, far: i32, limit: i32) {
    let scan = rng.below(SCANS);
    lengthen(call, scan + 1);
    let d = limit + 1 + rng.between(0, limit / 2);
    let out = rng.between(1, 60);
    let members = [(0, out, d), (far, out, 0), (0, out + far, 0), (-far, out, 3 * d)];
    post(call, frame, &members, limit, scan);
    call.limit[scan] = rng.between(d, 3 * d - 1);
}

/// The same, and a point that hears the first and one post more, which is alone there once
/// the first is set aside.
fn leave_alone(rng: &mut Rng, call: &mut Call, frame: &Frame, limit: i32) {
    let scan = rng.below(SCANS);
    lengthen(call, scan + 1);
    let radius = bound_radius(call, SHORTEST, LONGEST_OF_TWO);
    let far = rng.between(radius * 5 / 7 + 1, radius - 1);
    let d = limit + 1 + rng.between(0, limit / 2);
    let out = radius + rng.between(6, 20);
    let lone = (0, rng.between(1, 6), rng.between(40, 40 + 3 * d));
    let members = [lone, (0, out, d), (far, out, 0), (0, out + far, 0), (-far, out, 3 * d)];
    drop_inside(call, frame.place, out + 2);
    post(call, frame, &members, limit, scan);
    call.limit[scan] = rng.between(d.max(lone.2), (3 * d - 1).max(lone.2));
    // The radius of that scan goes as far as the first, and to no other.
    call.radius[..scan].iter_mut().for_each(|before| *before = (*before).max(out + 2));
    call.radius[scan..].iter_mut().for_each(|later| *later = (*later).min(out + 2));
    call.radius[scan] = out + 2;
}

/// The same in each of many scans: what is rejected falls from one to the next, and so do
/// the limits. Companies stand side by side along the border.
pub fn forsake_in_turn(rng: &mut Rng, call: &mut Call, part: &Window) {
    let whole = whole_grid(call);
    let frame = beyond_a_side(rng, call, part).or_else(|| beyond_a_side(rng, call, &whole));
    let Some(frame) = frame.filter(|_| call.x.len() + 6 * SCANS <= MOST_STATIONS) else {
        return;
    };
    lengthen(call, SCANS);
    let radius = bound_radius(call, SHORTEST, LONGEST_IN_TURN);
    let far = rng.between(radius * 5 / 7 + 1, radius - 1);
    let (limit, out) = (rng.pick(&LIMITS).max(10), rng.between(1, 20));
    let rejected = |scan: usize| 7 * limit - scan as i32 * limit / 4;
    let mut members = Vec::new();
    for scan in 0..SCANS {
        let at = (3 * far + radius + 1) * (scan as i32 - 2);
        let follows = rng.one_in(3);
        let beside = if follows { limit + 1 } else { 0 };
        let forsaken = [(at, out, 2 * limit), (at + far, out, beside)];
        let others = [(at, out + far, 0), (at - far, out, rejected(scan))];
        // With the first gone, the second has two left that it differs from.
        let follower = [(at + far, out + far, 0), (at + 2 * far, out, 0)];
        let all = [forsaken, others, follower].concat();
        let many = if follows { 6 } else { 4 };
        members.extend(all.into_iter().take(if rng.one_in(6) { 0 } else { many }));
    }
    post(call, &frame, &members, limit, SCANS - 1);
    for scan in 0..SCANS {
        call.limit[scan] = rng.between(rejected(scan + 1), rejected(scan) - 1);
    }
}

/// The second is set aside in the first scan by the first and two others. It made the
/// first's sum right, so that the second scan sets the first aside.
fn set_aside_before(rng: &mut Rng, call: &mut Call, frame: &Frame, far: i32, limit: i32) {
    lengthen(call, 2);
    let d = limit + 1 + rng.between(0, limit / 2);
    let out = far + rng.between(1, 40);
    let second = (far, out, 3 * d);
    let others = [(2 * far, out, 0), (far, out - far, 0), (0, out + far, 0), (-far, out, 0)];
    let members = [&[(0, out, d), second][..], &others].concat();
    post(call, frame, &members, limit, 1);
}

/// Two posts, and others farther out with the same nearest place.
fn far_out(rng: &mut Rng, call: &mut Call, frame: &Frame, radius: i32, limit: i32) {
    let d = rng.between(limit + 1, 3 * limit + 9);
    let out = rng.between(1, 20);
    let past = rng.between(out + radius, (BORDER as i32 - 2).max(out + radius));
    let mut members = vec![(0, out, d), (rng.between(0, 3), past, 0), (1, past + 1, 0)];
    members.extend(rng.one_in(2).then_some((2, out, 0)));
    post(call, frame, &members, limit, 0);
}

/// A post, a neighbour that it differs from, and another that is too far out to take part.
fn past_the_border(rng: &mut Rng, call: &mut Call, frame: &Frame, radius: i32, limit: i32) {
    let d = rng.between(limit + 1, 3 * limit + 9);
    let border = BORDER as i32;
    let (out, past) = (border - rng.between(0, radius / 2 - 1), border + rng.between(1, 3));
    post(call, frame, &[(0, out, d), (3, out, 0), (0, past, 0)], limit, 0);
}
