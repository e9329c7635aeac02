//! The generator of point readings and summaries: any field of i32, places at
//! every kind of border, and supports that decide by one corner.

use crate::call::Query;
use crate::damage;
use crate::field::Shape;
use crate::generate_posts::distance;
use crate::rng::Rng;

/// Every so many indices a query is damaged. The turns of the places have no
/// divisor in common with it, so that each place is damaged too.
const DAMAGED_EVERY: u64 = 7;

/// The arguments of a point reading.
pub fn reading(seed: u64, index: u64) -> Query {
    let mut rng = Rng::for_case(seed, 3, index);
    let rng = &mut rng;
    let shape = any_shape(rng);
    let (x, y) = place(rng, shape, index);
    let mut query = query_of(rng, shape, x, y);
    if shape.holds(x, y) {
        set_corners(rng, &mut query, shape);
    }
    query.support = support(rng, shape, query.x, query.y);
    if index.is_multiple_of(DAMAGED_EVERY) {
        damage::break_reading(rng, &mut query, index / DAMAGED_EVERY);
    }
    query
}

/// The arguments of a summary: a query of which only the field counts.
pub fn summary(seed: u64, index: u64) -> Query {
    let mut rng = Rng::for_case(seed, 4, index);
    let rng = &mut rng;
    let shape = any_shape(rng);
    let mut query = query_of(rng, shape, 0, 0);
    set_ends(rng, &mut query.field, index);
    if index.is_multiple_of(DAMAGED_EVERY) {
        damage::break_summary(rng, &mut query, index / DAMAGED_EVERY);
    }
    query
}

fn query_of(rng: &mut Rng, shape: Shape, x: i32, y: i32) -> Query {
    let field = any_field(rng, shape.points());
    let support = vec![1; shape.points()];
    Query { nx: shape.nx as u32, ny: shape.ny as u32, field, support, x, y }
}

fn any_shape(rng: &mut Rng) -> Shape {
    let (nx, ny) = (2 + rng.below(8), 2 + rng.below(8));
    let (nx, ny) = match rng.below(20) {
        0 | 1 => (64, ny),
        2 | 3 => (nx, 64),
        4 => (64, 64),
        5 | 6 => (2, 2),
        _ => (nx, ny),
    };
    Shape { nx, ny }
}

/// Any i32 may stand in a field that is read or summed up.
fn any_field(rng: &mut Rng, points: usize) -> Vec<i32> {
    let wide = (i32::MIN, i32::MAX);
    let (low, high) = match rng.below(9) {
        0 => (0, 0),
        1 => (-5, 5),
        2 => (-50_000, 50_000),
        3 => (-13_000_000, 13_000_000),
        4 => rng.pick(&[(i32::MIN, i32::MIN), (i32::MAX, i32::MAX), (i32::MIN, -1), (1, i32::MAX)]),
        _ => wide,
    };
    // Of some fields every value is an end of the range.
    let ends_alone = rng.one_in(4);
    let value = |rng: &mut Rng| match rng.below(12) {
        0 => rng.pick(&[low, high]),
        _ if ends_alone => rng.pick(&[low, high]),
        _ => rng.between(low, high),
    };
    (0..points).map(|_| value(rng)).collect()
}

/// The places in turn: inside a cell, on grid lines, corners and edges of the
/// grid, one unit off it, the extremes of i32, anywhere off it, and where a
/// post may stand.
fn place(rng: &mut Rng, shape: Shape, turn: u64) -> (i32, i32) {
    let (last_x, last_y) = shape.far_corner();
    let (last_x, last_y) = (last_x as i32, last_y as i32);
    let (i, j) = (rng.below(shape.nx) as i32, rng.below(shape.ny) as i32);
    let inside_x = 64 * rng.below(shape.nx - 1) as i32 + rng.between(1, 63);
    let inside_y = 64 * rng.below(shape.ny - 1) as i32 + rng.between(1, 63);
    let (x, y) = (rng.between(0, last_x), rng.between(0, last_y));
    match turn % 29 {
        0..=3 => (inside_x, inside_y),
        4 | 5 => (64 * i, inside_y),
        6 | 7 => (inside_x, 64 * j),
        8 => (64 * i, 64 * j),
        9 => (0, 0),
        10 => (last_x, 0),
        11 => (0, last_y),
        12 => (last_x, last_y),
        13 => (0, y),
        14 => (last_x, y),
        15 => (x, 0),
        16 => (x, last_y),
        17 => (-1, y),
        18 => (last_x + 1, y),
        19 => (x, -1),
        20 => (x, last_y + 1),
        21 => (rng.pick(&[i32::MIN, i32::MAX]), rng.pick(&[y, i32::MIN, i32::MAX])),
        22 => (rng.pick(&[x, i32::MIN, i32::MAX]), rng.pick(&[i32::MIN, i32::MAX])),
        // One unit inside: the last that no border is reached by.
        23 => (rng.pick(&[1, last_x - 1]), rng.pick(&[1, last_y - 1])),
        24 => (rng.between(i32::MIN, i32::MAX), rng.between(-64, last_y + 64)),
        25 => (out_of(rng, last_x), y),
        26 => (x, out_of(rng, last_y)),
        _ => (out_of(rng, last_x), out_of(rng, last_y)),
    }
}

/// A position off the grid, about as far as a post may be.
fn out_of(rng: &mut Rng, last: i32) -> i32 {
    let out = distance(rng);
    rng.pick(&[-out, last + out])
}

/// Some cells hold an extreme at every corner, which gives the largest sums.
/// In others the corners are turned against each other and the place is half
/// way between them: the sum is 0 though they are not, or next to it.
fn set_corners(rng: &mut Rng, query: &mut Query, shape: Shape) {
    let corners = shape.corners(query.x, query.y).map(|(point, _)| point);
    match rng.below(8) {
        0 => {
            let extreme = rng.pick(&[i32::MIN, i32::MAX]);
            corners.iter().for_each(|point| query.field[*point] = extreme);
        }
        1 if query.x % 64 != 0 => {
            query.x = query.x / 64 * 64 + 32;
            for pair in corners.chunks(2) {
                query.field[pair[1]] = query.field[pair[0]].saturating_neg();
            }
        }
        _ => (),
    }
}

/// Supports, many of which decide by one corner of the place's cell.
fn support(rng: &mut Rng, shape: Shape, x: i32, y: i32) -> Vec<u8> {
    let bare = rng.pick(&[1, 2, 8, 1_000]);
    let mut support: Vec<u8> = (0..shape.points())
        .map(|_| if rng.one_in(bare) { 0 } else { rng.pick(&[1, 32, 63, 255]) })
        .collect();
    if rng.one_in(4) || !shape.holds(x, y) {
        return support;
    }
    let corners = shape.corners(x, y);
    let one = rng.below(4);
    for (at, (point, share)) in corners.iter().enumerate() {
        let backed = rng.pick(&[1, 32, 63, 255]);
        support[*point] = match rng.below(8) {
            0..=3 if *share == 0 => 0,
            _ if at == one && *share != 0 && bare > 2 => 0,
            _ => backed,
        };
    }
    support
}

/// The lowest and the highest value at the first and the last point in turn.
fn set_ends(rng: &mut Rng, field: &mut [i32], turn: u64) {
    let low = field.iter().copied().min().unwrap_or(0);
    let high = field.iter().copied().max().unwrap_or(0);
    let (low, high) = rng.pick(&[(low, high), (low, high), (i32::MIN, i32::MAX)]);
    let last = field.len() - 1;
    match turn % 5 {
        0 => (field[0], field[last]) = (low, high),
        1 => (field[0], field[last]) = (high, low),
        2 => field.fill(rng.pick(&[low, high, 0])),
        _ => (),
    }
}
