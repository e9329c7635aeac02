//! The summary of a field: lowest, highest and span, as exact doubles.

use crate::refusals::check_shape;
use crate::units::UNIT;

#[derive(Clone, Copy, Debug, PartialEq)]
pub struct Summary {
    pub refusal: u32,
    pub place: u32,
    pub lowest: f64,
    pub highest: f64,
    pub span: f64,
}

pub fn summarise(nx: u32, ny: u32, field: &[i32]) -> Summary {
    let refused = check_shape(nx, ny, field.len()).err();
    // A refused summary holds three zeros; an accepted field is not empty.
    let (lowest, highest) = match refused {
        Some(_) => (0, 0),
        None => (
            field.iter().copied().min().map_or(0, i64::from),
            field.iter().copied().max().map_or(0, i64::from),
        ),
    };
    Summary {
        refusal: refused.map_or(0, |refusal| refusal.number),
        place: refused.map_or(0, |refusal| refusal.place),
        lowest: lowest as f64 / UNIT,
        highest: highest as f64 / UNIT,
        span: (highest - lowest) as f64 / UNIT,
    }
}
