//! Winds and modes broken on purpose, alone and beside other faults. The ways
//! come in turn, so that a few hundred requests have each.

use crate::call::Call;
use crate::damage::{break_one, set_rows};
use crate::generate_rules::bury_row;
use crate::rng::Rng;
use crate::units::{BORDER, MISSING, MOST_STATIONS, WIND};
use crate::verdicts::{before_first_scan, ACCEPTED, OFF_GRID};

/// Breaks the winds or the mode of a good call, so that it earns a refusal that
/// these can earn: 4 and 5 in every other turn, and 8, which has the most ways, in
/// two of three. Says whether it did.
pub fn break_by_wind(rng: &mut Rng, call: &mut Call, number: u32, turn: u64) -> bool {
    match (number, turn % 2, turn % 3) {
        (4, 1, _) => break_columns(rng, call, turn / 2),
        (5, 1, _) => break_mode(rng, call, turn / 2),
        (8, _, third @ 1..) => break_rows(rng, call, turn / 3 * 2 + third - 1),
        _ => return false,
    }
    true
}

/// One wind column or both one short, one long, empty, or too long by far; in a
/// third of the requests the mode is at fault too, which is tested later.
fn break_columns(rng: &mut Rng, call: &mut Call, way: u64) {
    let rows = call.x.len();
    let over = MOST_STATIONS + 1 + rng.pick(&[0, 0, 88]);
    let less = rows.saturating_sub(1);
    let (column, length) = match way % 12 {
        0 => (Some(0), less),
        1 => (Some(1), less),
        2 => (Some(0), rows + 1),
        3 => (Some(1), rows + 1),
        4 => (Some(0), 0),
        5 => (Some(1), 0),
        6 | 7 => (None, 0),
        8 => (Some(0), over),
        9 => (Some(1), over),
        10 => (None, less),
        _ => (None, rows + 1),
    };
    // Without stations there is nothing that could be shorter.
    let length = if length == rows { rows + 1 } else { length };
    let columns = call.winds_mut().columns_mut();
    let broken = columns.into_iter().enumerate().filter(|(at, _)| column.is_none_or(|c| c == *at));
    broken.for_each(|(_, column)| column.resize(length, 0));
    if (way + way / 12).is_multiple_of(3) {
        call.mode = bad_mode(rng);
    }
}

/// Modes that there are none of, and that are like 0 or 1 in fewer bits.
const WRAPPING: [u32; 6] = [256, 257, 65_536, 65_537, 1 << 31, (1 << 31) + 1];

pub fn bad_mode(rng: &mut Rng) -> u32 {
    let wrapping = rng.pick(&WRAPPING);
    rng.pick(&[2, 3, wrapping, u32::MAX])
}

/// The mode alone, or beside a fault that is tested before it or after it.
fn break_mode(rng: &mut Rng, call: &mut Call, way: u64) {
    call.mode = match way % 10 {
        0 | 1 => 2,
        2 => 3,
        3 => u32::MAX,
        4 | 5 => rng.pick(&WRAPPING),
        _ => bad_mode(rng),
    };
    match way % 10 {
        6 => break_one(rng, call, 5),
        7 => break_one(rng, call, 4),
        8 => break_one(rng, call, 6),
        9 => break_one(rng, call, 7 + (way / 10 % 2) as u32),
        _ => (),
    }
}

/// A bad wind in one row, often one that has a verdict to come; or beside it
/// another fault, in the same row, an earlier one or a later one.
fn break_rows(rng: &mut Rng, call: &mut Call, way: u64) {
    if call.x.len() < 2 {
        set_rows(call, 2);
    }
    let (row, beside) = (row_to_break(rng, call), rng.below(call.x.len() - 1));
    let any = rng.draw();
    match way % 10 {
        7 => {
            set_bad_wind(rng, call, row, any);
            set_bad_row(rng, call, row);
        }
        8 => {
            set_bad_wind(rng, call, beside + 1, any);
            set_bad_row(rng, call, beside);
        }
        9 => {
            set_bad_wind(rng, call, beside, any);
            set_bad_row(rng, call, beside + 1);
        }
        way => set_bad_wind(rng, call, row, way),
    }
}

/// Any row, or in half of the calls any that takes no part, if there is one. In some
/// it is one that takes no part from now on.
fn row_to_break(rng: &mut Rng, call: &mut Call) -> usize {
    let verdict = before_first_scan(call, BORDER);
    let idle: Vec<usize> = (0..verdict.len()).filter(|row| verdict[*row] != ACCEPTED).collect();
    let any = rng.below(call.x.len());
    let beside = &mut rng.beside();
    if beside.below(5) < 2 && verdict[any] == ACCEPTED {
        take_out(call, any, beside.pick(&TO_COME));
        any
    } else if idle.is_empty() || rng.one_in(2) {
        any
    } else {
        rng.pick(&idle)
    }
}

/// The verdicts that a row may have before the first scan. Minutes give 2 and 3 seldom.
const TO_COME: [u8; 8] = [1, 2, 2, 3, 3, 3, 4, OFF_GRID];

/// Gives a row one of them, as far as the minutes have room for it.
fn take_out(call: &mut Call, row: usize, verdict: u8) {
    if verdict == OFF_GRID {
        call.x[row] = -(BORDER as i32) - 1;
    }
    bury_row(call, row, verdict);
}

/// A wind with the mark in one of its numbers alone, one past a bound, or far
/// past it.
fn set_bad_wind(rng: &mut Rng, call: &mut Call, row: usize, way: u64) {
    let (low, high) = (*WIND.start(), *WIND.end());
    let good = rng.between(low, high);
    let good = rng.pick(&[good, 0, low, high]);
    let far = rng.pick(&[1_000, -1_000, i32::MAX, i32::MIN + 1, 256, -65_536]);
    let wind = match way % 7 {
        0 => (MISSING, good),
        1 => (good, MISSING),
        2 => (high + 1, good),
        3 => (low - 1, good),
        4 => (good, high + 1),
        5 => (good, low - 1),
        _ => rng.pick(&[(far, good), (good, far), (far, MISSING), (MISSING, far)]),
    };
    let winds = call.winds_mut();
    (winds.u[row], winds.v[row]) = wind;
}

/// A fault of a row that is tested before its wind.
fn set_bad_row(rng: &mut Rng, call: &mut Call, row: usize) {
    match rng.below(3) {
        0 => call.value[row] = 1_000_001,
        1 => call.x[row] = -1_000_001,
        _ => call.from[row] = call.until[row],
    }
}
