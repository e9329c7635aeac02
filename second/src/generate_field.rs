//! The generator of single fields that are to be smoothed. Sides, values and
//! what is wrong with a field come in turns of lengths that have no divisor in
//! common, so every run has them all, in every company.

use crate::call::Field;
use crate::field::Shape;
use crate::rng::Rng;
use crate::units::{FIELD, SIDE};

/// Every so many indices a field is one that is refused.
const REFUSED_EVERY: u64 = 5;

/// The sides that are out of range, and the values.
pub const BAD_SIDES: [u32; 4] = [0, 1, *SIDE.end() + 1, u32::MAX];
pub const BAD_VALUES: [i32; 4] = [*FIELD.end() + 1, *FIELD.start() - 1, i32::MAX, i32::MIN];

pub fn field(seed: u64, index: u64) -> Field {
    let mut rng = Rng::for_case(seed, 8, index);
    let rng = &mut rng;
    let shape = shape(rng, index);
    let values = values(rng, shape, index);
    let mut field = Field { nx: shape.nx as u32, ny: shape.ny as u32, values };
    if rng.one_in(8) {
        // The length still fits, and the rows are others.
        (field.nx, field.ny) = (field.ny, field.nx);
    }
    if index.is_multiple_of(REFUSED_EVERY) {
        spoil(rng, &mut field, index / REFUSED_EVERY);
    }
    field
}

fn shape(rng: &mut Rng, turn: u64) -> Shape {
    let (nx, ny) = (4 + rng.below(9), 4 + rng.below(9));
    let long = rng.pick(&[nx, nx, 3, 64]);
    let (nx, ny) = match turn % 17 {
        0 => (2, long),
        1 => (long, 2),
        2 => (3, long),
        3 => (long, 3),
        4 => (2, 2),
        5 => (3, 3),
        6 => (64, ny),
        7 => (nx, 64),
        8 => (64, 64),
        _ => (nx, ny),
    };
    Shape { nx, ny }
}

/// Values in turn: at the ends of their range and near them, small ones whose
/// sums are often an exact half, a lone one, rows or columns unlike each other,
/// and any.
fn values(rng: &mut Rng, shape: Shape, turn: u64) -> Vec<i32> {
    let (least, most) = (*FIELD.start(), *FIELD.end());
    let level = rng.between(-1_000_000, 1_000_000);
    match turn % 19 {
        0 => vec![most; shape.points()],
        1 => vec![least; shape.points()],
        2 => in_checks(rng, shape),
        3 => {
            let rest = within(rng, shape, -20, 20);
            with_one(rng, shape, rest, &[least, most])
        }
        4 => (0..shape.points()).map(|_| rng.pick(&[least, most])).collect(),
        5 => within(rng, shape, most - 20, most),
        6 => within(rng, shape, least, least + 20),
        7 | 8 => within(rng, shape, -20, 20),
        9 => within(rng, shape, level - 20, level + 20),
        10 => within(rng, shape, -1, 1),
        11 => vec![0; shape.points()],
        12 => with_one(rng, shape, vec![0; shape.points()], &[16, 2, -2]),
        13 => in_bands(rng, shape, |column, _| column),
        14 => in_bands(rng, shape, |_, row| row),
        15 => within(rng, shape, -50_000, 50_000),
        _ => within(rng, shape, least, most),
    }
}

fn within(rng: &mut Rng, shape: Shape, low: i32, high: i32) -> Vec<i32> {
    (0..shape.points()).map(|_| rng.between(low, high)).collect()
}

/// The two ends of the range in turn, like the squares of a chess board.
fn in_checks(rng: &mut Rng, shape: Shape) -> Vec<i32> {
    let ends = [*FIELD.start(), *FIELD.end()];
    let first = rng.below(2);
    let colour = |point: usize| (point % shape.nx + point / shape.nx + first) % 2;
    (0..shape.points()).map(|point| ends[colour(point)]).collect()
}

/// The values with another at one point, more often than not an inner one.
fn with_one(rng: &mut Rng, shape: Shape, mut values: Vec<i32>, others: &[i32]) -> Vec<i32> {
    let inner = shape.nx > 2 && shape.ny > 2 && !rng.one_in(3);
    let point = match inner {
        true => shape.index(1 + rng.below(shape.nx - 2), 1 + rng.below(shape.ny - 2)),
        false => rng.below(shape.points()),
    };
    values[point] = rng.pick(others);
    values
}

/// Columns, or rows, each with one value of its own.
fn in_bands(rng: &mut Rng, shape: Shape, band: fn(usize, usize) -> usize) -> Vec<i32> {
    let bands: Vec<i32> = (0..shape.nx.max(shape.ny)).map(|_| rng.between(-500, 500)).collect();
    let at = |point: usize| bands[band(point % shape.nx, point / shape.nx)];
    (0..shape.points()).map(at).collect()
}

/// Makes a good field one that is refused.
fn spoil(rng: &mut Rng, field: &mut Field, turn: u64) {
    let (turn, row) = ((turn % 23) as usize, field.nx as usize);
    let length = field.values.len();
    match turn {
        0..4 => with_sides(rng, field, BAD_SIDES[turn], field.ny),
        4..8 => with_sides(rng, field, field.nx, BAD_SIDES[turn - 4]),
        8 => field.values.truncate(length - 1),
        9 => field.values.push(0),
        10 => field.values.clear(),
        11 => field.values.truncate(length - row),
        12 => field.values.extend(vec![0; row]),
        13..21 => {
            let anywhere = rng.below(length);
            let point = rng.pick(&[0, length - 1, anywhere, anywhere]);
            field.values[point] = BAD_VALUES[turn % 4];
        }
        21 => {
            // The product is past 32 bits by the length.
            let (nx, ny) = rng.pick(&[((1 << 31) + 3, 2), (2, (1 << 31) + 3), (1 << 16, 1 << 16)]);
            (field.nx, field.ny) = (nx, ny);
            field.values.resize(nx.wrapping_mul(ny) as usize, 7);
        }
        _ => {
            let side = rng.pick(&BAD_SIDES);
            with_sides(rng, field, side, side);
        }
    }
}

/// Other sides, often with a length that fits them.
fn with_sides(rng: &mut Rng, field: &mut Field, nx: u32, ny: u32) {
    (field.nx, field.ny) = (nx, ny);
    let points = u64::from(nx) * u64::from(ny);
    let most = u64::from(*SIDE.end() + 1).pow(2);
    if points <= most && !rng.one_in(4) {
        let again: Vec<i32> = field.values.iter().copied().cycle().take(points as usize).collect();
        field.values = again;
    }
}
