//! Buddy checks broken on purpose, alone and beside other faults, in calls and in texts.
//! The ways come in turn, so that a few hundred requests have each.

use crate::call::{Buddy, Call};
use crate::damage::break_one;
use crate::rng::Rng;
use crate::units::{BUDDY_LIMIT, BUDDY_RADIUS, RULES};

/// Radii and limits past their bounds, some of which are good in fewer bits.
const FAR_RADII: [i32; 6] = [514, 1_024, 65_600, 1 << 24, i32::MAX, (1 << 30) + 64];
const LOW_RADII: [i32; 4] = [-1, -64, -512, i32::MIN];
const FAR_LIMITS: [i32; 4] = [2_000_002, 16_777_216, (1 << 30) + 50, i32::MAX];
const LOW_LIMITS: [i32; 4] = [-1, -2, -2_000_000, i32::MIN];

/// How many ways to be bad a check has by itself.
const ALONE: u64 = 8;
/// How many there are for 6, and how many of these a text can say.
const WAYS: u64 = 15;
const IN_TEXTS: u64 = 10;

/// Breaks the check of a good call, so that it earns 6, in every other turn; and in some
/// turns of 7 and 8 beside these. Says whether it did.
pub fn break_by_buddy(rng: &mut Rng, call: &mut Call, number: u32, turn: u64) -> bool {
    break_in_turn(rng, call, number, turn, WAYS)
}

/// The same as far as a text can say it.
pub fn break_in_text(rng: &mut Rng, call: &mut Call, number: u32, turn: u64) -> bool {
    break_in_turn(rng, call, number, turn, IN_TEXTS)
}

fn break_in_turn(rng: &mut Rng, call: &mut Call, number: u32, turn: u64, ways: u64) -> bool {
    match (number, turn % 2, turn % 4, turn % 6) {
        (6, 1, ..) => break_check(rng, call, turn / 2 % ways),
        (7, _, 1, _) => break_beside(rng, call, 7, turn % 8 == 1),
        // The other turns are those of the winds.
        (8, _, _, 0) => break_beside(rng, call, 8, turn.is_multiple_of(12)),
        _ => return false,
    }
    true
}

/// The check alone, or beside a fault that is tested before it.
fn break_check(rng: &mut Rng, call: &mut Call, way: u64) {
    let any = rng.below(ALONE as usize) as u64;
    call.buddy = Some(bad_check(rng, if way < ALONE { way } else { any }));
    match way {
        8 => break_one(rng, call, 6),
        9 => break_last_scan(call),
        10 => call.rule = Some(rng.pick(&[RULES.start() - 1, RULES.end() + 1])),
        11 => call.mode = 2,
        12 => break_one(rng, call, 5),
        13 => break_one(rng, call, 4),
        14 => call.grid_len += 1,
        _ => (),
    }
}

/// A fault that is tested after a bad check, which is on, or off so that it is found.
fn break_beside(rng: &mut Rng, call: &mut Call, number: u32, on: bool) {
    let way = rng.below(ALONE as usize) as u64;
    call.buddy = Some(Buddy { on, ..bad_check(rng, way) });
    break_one(rng, call, number);
}

/// A check that is on, with one of its numbers or both one past a bound, or far past it.
fn bad_check(rng: &mut Rng, way: u64) -> Buddy {
    let (low, high) = (*BUDDY_RADIUS.start(), *BUDDY_RADIUS.end());
    let (least, most) = (*BUDDY_LIMIT.start(), *BUDDY_LIMIT.end());
    let radius = rng.pick(&[low, 64, 100, high]);
    let limit = rng.pick(&[least, 50, 300, most]);
    match way {
        0 => Buddy::on(low - 1, limit),
        1 => Buddy::on(high + 1, limit),
        2 => Buddy::on(rng.pick(&LOW_RADII), limit),
        3 => Buddy::on(rng.pick(&FAR_RADII), limit),
        4 => Buddy::on(radius, least - 1),
        5 => Buddy::on(radius, most + 1),
        6 => Buddy::on(radius, rng.pick(&[LOW_LIMITS, FAR_LIMITS].concat())),
        _ => Buddy::on(rng.pick(&FAR_RADII), rng.pick(&LOW_LIMITS)),
    }
}

/// Six scans, of which the last is bad: its place is next to the check's.
fn break_last_scan(call: &mut Call) {
    let (radius, limit) = (call.radius[0], call.limit[0]);
    (call.scans, call.radius, call.limit) = (6, vec![radius; 6], vec![limit; 6]);
    call.radius[5] = 0;
}

/// Sets the numbers of a check that is on to their bounds, or to one past them.
pub fn push_check(rng: &mut Rng, call: &mut Call) {
    let past = i32::from(rng.one_in(9));
    let Some(buddy) = call.buddy.as_mut().filter(|buddy| buddy.on) else {
        return;
    };
    let (radii, limits) = (BUDDY_RADIUS, BUDDY_LIMIT);
    match rng.below(8) {
        0 | 1 => buddy.radius = rng.pick(&[radii.start() - past, radii.end() + past]),
        2 | 3 => buddy.limit = rng.pick(&[limits.start() - past, limits.end() + past]),
        _ => (),
    }
}

/// How many ways to go wrong a check's line has by its value, and by its place.
pub const BY_VALUE: u64 = 15;
pub const BY_PLACE: u64 = 13;

const KEYS: [&[u8]; 9] = [
    b"buddies=",
    b"buddys=",
    b"Buddy=",
    b"BUDDY=",
    b"budy=",
    b" buddy=",
    b"buddy =",
    b"buddy",
    b"body=",
];

/// Breaks the line of the check of a text in form, or sets it where it may not stand. The
/// ways come in turn. In some of them the text stays in form, and is refused by its
/// numbers or not at all.
pub fn break_line(rng: &mut Rng, text: &mut Vec<u8>, way: u64) {
    let lines = text.split_inclusive(|byte| *byte == b'\n').map(<[u8]>::to_vec);
    let mut lines: Vec<Vec<u8>> = lines.filter(|line| !line.starts_with(b"buddy=")).collect();
    let is_row = |line: &Vec<u8>| line.starts_with(b"row=");
    let rows = lines.iter().position(is_row).unwrap_or(0);
    let value = wrong_value(rng, way).unwrap_or_else(|| rng.pick(&GOOD));
    let line = [b"buddy=", value, b"\n"].concat();
    set_line(rng, &mut lines, rows, line, way);
    *text = lines.concat();
}

const GOOD: [&[u8]; 5] = [b"1,0", b"64,50", b"100,300", b"512,2000000", b"128,0"];

/// What is wrong with the value, if anything is.
fn wrong_value(rng: &mut Rng, way: u64) -> Option<&'static [u8]> {
    let values: &[&[u8]] = match way {
        0 => &[b"64", b"0", b"512", b""],
        1 => &[b"64,50,1", b"1,2,3", b"64,50,"],
        2 => &[b",", b"64,", b",50"],
        3 => &[b"064,50", b"64,050", b"00,0", b"1,00"],
        4 => &[b"-0,50", b"64,-0"],
        5 => &[b"+64,50", b"64,+50"],
        6 => &[b"M,50", b"64,open", b"64,x", b"0x40,50", b"64,1e3", b"64\t,50", b"64,50\r"],
        7 => &[b" 64,50", b"64, 50", b"64 ,50", b"64,50 "],
        8 => &[b"2147483648,50", b"64,2147483648", b"9999999999,50", b"64,99999999999999999999"],
        9 => &[b"-2147483649,50", b"64,-2147483649"],
        // In 32 bits, or in 64, these are 64 or 50.
        10 => &[b"4294967360,50", b"64,4294967346", b"18446744073709551680,50"],
        11 => &[b"0,50", b"513,50", b"0,0", b"513,2000000"],
        12 => &[b"64,-1", b"64,2000001", b"1,-1", b"512,2000001"],
        13 => &[b"2147483647,50", b"64,2147483647", b"-2147483648,50", b"64,-2147483648"],
        14 => &[b"1,0", b"512,2000000"],
        _ => return None,
    };
    Some(rng.pick(values))
}

/// Puts the line where it belongs, or where it does not.
fn set_line(rng: &mut Rng, lines: &mut Vec<Vec<u8>>, rows: usize, line: Vec<u8>, way: u64) {
    let of = |key: &[u8]| lines.iter().position(|line| line.starts_with(key)).unwrap_or(0);
    let (scans, first, stations) = (of(b"scans="), of(b"scan="), of(b"stations="));
    match way {
        15 => lines.insert(rows, [rng.pick(&KEYS), &line[6..]].concat()),
        16 => lines.insert(scans, line),
        17 => lines.insert(first, line),
        18 => lines.insert(first + 1 + rng.below((rows - first - 1).max(1)), line),
        19 => lines.insert(rows + 1 + rng.below(stations - rows), line),
        20 => lines.insert(stations, line),
        21 => lines.insert(rng.pick(&[stations + 1, lines.len()]), line),
        22 => lines.splice(rows..rows, [line.clone(), line]).for_each(drop),
        23 => lines.splice(rows..rows, [line, b"buddy=100,300\n".to_vec()]).for_each(drop),
        24 => {
            // The text ends in the line, or that has no end of its own.
            if rng.one_in(2) {
                lines.truncate(rows);
            }
            lines.insert(rows, line[..line.len() - 1].to_vec());
        }
        25 => lines.insert(rng.pick(&[0, 1, 2]), line),
        26 => {
            // One in its place, and another in none.
            lines.insert(rng.pick(&[stations, rows + 1]), line.clone());
            lines.insert(rows, line);
        }
        27 => {
            lines.insert(rows, line.clone());
            lines.insert(first, line);
        }
        _ => lines.insert(rows, line),
    }
}
