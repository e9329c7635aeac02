//! The shrinker of single fields: parts of the grid, zeros, values nearer to
//! zero and, where the sides do not fit, fewer values and nearer sides.

use crate::call::Field;
use crate::shrink::{chunks, misfits, nearer_to_zero, parts, picked};

/// A field of so many points can be tried in many ways.
const FEW: usize = 16;

pub fn smaller_fields(field: &Field) -> impl Iterator<Item = Field> + '_ {
    let with = |values: Vec<i32>| Field { values, ..*field };
    let parts = parts(field.nx, field.ny, field.values.len()).into_iter().map(|part| Field {
        nx: part.right - part.left + 1,
        ny: part.bottom - part.top + 1,
        values: picked(&field.values, field.nx, &part),
    });
    let misfits = misfits(field.nx, field.ny, &field.values);
    let misfits = misfits.map(|(nx, ny, values)| Field { nx, ny, values });
    parts
        .chain(misfits)
        .chain(with_zeros(&field.values).map(with))
        .chain(lone_values(&field.values).map(with))
        .chain(remainders(&field.values).map(with))
        .chain(nearer_to_zero(&field.values).map(with))
}

/// Ranges of the values at zero, where they are not yet.
fn with_zeros(values: &[i32]) -> impl Iterator<Item = Vec<i32>> + '_ {
    let ranges = chunks(values.len());
    ranges.filter(|range| values[range.clone()].iter().any(|value| *value != 0)).map(|range| {
        let mut values = values.to_vec();
        values[range].fill(0);
        values
    })
}

/// Where few points are left: zeros with one of the values that make a half by
/// themselves, whichever share they have.
fn lone_values(values: &[i32]) -> impl Iterator<Item = Vec<i32>> + '_ {
    let others = values.iter().filter(|value| **value != 0).count();
    let points = if others > 1 && values.len() <= FEW { values.len() } else { 0 };
    let places = (0..points).flat_map(|at| [2, -2, 4, -4, 8, -8].map(|value| (at, value)));
    places.map(|(at, value)| {
        let mut lone = vec![0; values.len()];
        lone[at] = value;
        lone
    })
}

/// One value less as many times 4, 8 or 16 as it has. One of these leaves a sum
/// as far from a half as it was, whichever share the value has in it.
fn remainders(values: &[i32]) -> impl Iterator<Item = Vec<i32>> + '_ {
    let places = (0..values.len()).flat_map(|at| [4, 8, 16].map(|divisor| (at, divisor)));
    places.filter(|(at, divisor)| values[*at] / divisor != 0).map(|(at, divisor)| {
        let mut values = values.to_vec();
        values[at] %= divisor;
        values
    })
}
