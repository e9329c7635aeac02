//! The sorts of request text that a run must not lose, by name and number,
//! beside the harms. A name lists in brackets what its numbers stand for.

use crate::call::Refusal;
use crate::sorts::{named, Sort};
use crate::tally::Floor;
use crate::units::MOST_TEXT;

const SIZE: &str = "accepted text by size in 8,192 bytes";
const AT_LIMIT: &str = "text by the limit (65,536 bytes accepted, 65,536 refused, 65,537 refused)";
const PART: usize = 8_192;

/// The least of each sort in a full run.
pub fn floors() -> Vec<Floor> {
    let sizes = (0..8).map(|n| Floor::times(SIZE, n, 50));
    sizes.chain((0..3).map(|n| Floor::times(AT_LIMIT, n, 50))).collect()
}

pub fn of_text(text: &[u8], accepted: bool) -> Vec<Sort> {
    let length = text.len();
    let at_limit = [
        length == MOST_TEXT && accepted,
        length == MOST_TEXT && !accepted,
        length == MOST_TEXT + 1 && !accepted,
    ];
    let size = accepted.then(|| (SIZE, (length.saturating_sub(1) / PART) as u32));
    named(AT_LIMIT, at_limit).into_iter().chain(size).collect()
}

/// The line before, the line that a text is refused at by its form, and the line after;
/// empty where there is none. None if it is not refused so, or not at a line that it has.
pub fn refused_line<'a>(text: &'a [u8], refusal: &Refusal) -> Option<[&'a [u8]; 3]> {
    if refusal.number != 9 {
        return None;
    }
    let lines: Vec<&[u8]> = text.split_inclusive(|byte| *byte == b'\n').collect();
    let at = refusal.place as usize - 1;
    let line = lines.get(at)?;
    let before = at.checked_sub(1).map_or(&b""[..], |before| lines[before]);
    let after = lines.get(at + 1).copied().unwrap_or_default();
    Some([before, line, after])
}
