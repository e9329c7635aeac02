//! The point reading: an exact double and what stands behind it.

use crate::refusals::check_shape;
use crate::units::READING_DIVISOR;

#[derive(Clone, Copy, Debug, PartialEq)]
pub enum Reading {
    OffGrid,
    FirstGuess(f64),
    Backed(f64),
    Refused,
}

impl Reading {
    /// The number of the first C call.
    pub fn kind(&self) -> u32 {
        match self {
            Reading::OffGrid => 0,
            Reading::FirstGuess(_) => 1,
            Reading::Backed(_) => 2,
            Reading::Refused => 3,
        }
    }

    /// The double of the second C call, positive zero where there is none.
    pub fn value(&self) -> f64 {
        match self {
            Reading::FirstGuess(value) | Reading::Backed(value) => *value,
            Reading::OffGrid | Reading::Refused => 0.0,
        }
    }
}

pub fn reading(nx: u32, ny: u32, field: &[i32], support: &[u8], x: i32, y: i32) -> Reading {
    let Ok(shape) = check_shape(nx, ny, field.len()) else {
        return Reading::Refused;
    };
    if support.len() != field.len() {
        return Reading::Refused;
    }
    if !shape.holds(x, y) {
        return Reading::OffGrid;
    }
    // The sum is at most 2^43 in size, so a double holds it, and the divisor
    // is a power of two. A whole zero turns into positive zero.
    let value = shape.interpolation_sum(field, x, y) as f64 / READING_DIVISOR;
    let corners = shape.corners(x, y);
    let backed = corners.iter().all(|(point, share)| *share == 0 || support[*point] != 0);
    if backed {
        Reading::Backed(value)
    } else {
        Reading::FirstGuess(value)
    }
}
