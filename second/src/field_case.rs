//! One more kind of comparison: smoothing, of a single field by itself.

use crate::call::Field;
use crate::compare::{Case, Subject};
use crate::field_sorts;
use crate::generate_field;
use crate::shrink_field;
use crate::smoothing::smooth;
use crate::tally::{Floor, Tally};
use crate::text;

#[derive(Clone, Debug, PartialEq, Eq)]
pub struct FieldCase(pub Field);

impl Case for FieldCase {
    const KIND: &'static str = "smoothing";
    /// The smoothed values, or none where the field is refused.
    type Expected = Option<Vec<i32>>;

    fn generate(seed: u64, index: u64) -> Self {
        FieldCase(generate_field::field(seed, index))
    }

    fn expected(&self) -> Self::Expected {
        smooth(&self.0)
    }

    fn count(&self, expected: &Self::Expected, tally: &mut Tally) {
        match expected {
            Some(smooth) => {
                tally.add("accepted", 0);
                tally.add_sorts(&field_sorts::of_accepted(&self.0, smooth));
            }
            None => tally.add_sorts(&field_sorts::of_refused(&self.0)),
        }
    }

    fn difference(&self, expected: &Self::Expected, subject: &dyn Subject) -> Option<String> {
        let Field { nx, ny, values: before } = &self.0;
        let mut values = before.clone();
        let accepted = match subject.smooth(*nx, *ny, &mut values) {
            Ok(accepted) => accepted,
            Err(wrong) => return Some(wrong),
        };
        let asked = expected.as_ref().unwrap_or(before);
        let unlike = (0..asked.len()).find(|at| values[*at] != asked[*at]);
        match (accepted, expected, unlike) {
            (true, None, _) => Some("the field is accepted, not refused".to_string()),
            (false, Some(_), _) => Some("the field is refused, not accepted".to_string()),
            (_, None, Some(at)) => Some(format!("field[{at}] is written though refused")),
            (_, _, at) => at.map(|at| format!("field[{at}] is {}, not {}", values[at], asked[at])),
        }
    }

    fn smaller(&self) -> Box<dyn Iterator<Item = Self> + '_> {
        Box::new(shrink_field::smaller_fields(&self.0).map(FieldCase))
    }

    fn rerun_form(&self) -> String {
        text::line("nx,ny", &[self.0.nx, self.0.ny]) + &text::line("field", &self.0.values)
    }

    fn floors() -> Vec<Floor> {
        field_sorts::floors()
    }
}
