//! The smoothing by itself, as one call: document 01's, once, over a field that
//! an accepted run could hold. What a run never has is refused.

use crate::call::Field;
use crate::refusals::check_shape;
use crate::scan::smoothed;
use crate::units::FIELD;

/// The smoothed values; none where the sides, the length or a value is out of
/// range.
pub fn smooth(field: &Field) -> Option<Vec<i32>> {
    let shape = check_shape(field.nx, field.ny, field.values.len()).ok()?;
    let in_range = field.values.iter().all(|value| FIELD.contains(value));
    in_range.then(|| smoothed(shape, &field.values))
}
