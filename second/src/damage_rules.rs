//! Rules broken on purpose, alone and beside other faults, in calls and in texts.
//! The ways come in turn, so that a few hundred requests have each.

use crate::call::Call;
use crate::damage::break_one;
use crate::damage_winds::bad_mode;
use crate::rng::Rng;

/// Rules that there are none of, and that are 1 or 2 in two bytes or three, or without
/// the highest bit.
const WRAPPING: [u32; 6] =
    [65_537, 65_538, (1 << 24) + 1, (1 << 24) + 2, (1 << 31) + 1, (1 << 31) + 2];
const OTHERS: [u32; 9] = [4, 5, 10, 12, 21, 256, 257, 258, 1 << 31];

fn bad_rule(rng: &mut Rng) -> u32 {
    let (wrapping, other) = (rng.pick(&WRAPPING), rng.pick(&OTHERS));
    rng.pick(&[0, 3, wrapping, other, u32::MAX])
}

/// Breaks the rule of a good call, so that it earns 5: in three of eight turns, which
/// are not those of the mode. Says whether it did.
pub fn break_by_rule(rng: &mut Rng, call: &mut Call, number: u32, turn: u64) -> bool {
    let way = match (number, turn % 8) {
        (5, 0) => turn / 8 * 3,
        (5, 4) => turn / 8 * 3 + 1,
        (5, 6) => turn / 8 * 3 + 2,
        _ => return false,
    };
    break_rule(rng, call, way);
    true
}

/// The rule alone, or beside a fault that is tested before it or after it.
fn break_rule(rng: &mut Rng, call: &mut Call, way: u64) {
    call.rule = Some(match way % 12 {
        0 => 0,
        1 => 3,
        2 => rng.pick(&WRAPPING),
        3 => u32::MAX,
        8 => rng.pick(&OTHERS),
        9 => rng.pick(&[0, 3]),
        _ => bad_rule(rng),
    });
    match way % 12 {
        4 => break_one(rng, call, 4),
        5 => break_one(rng, call, 6),
        6 => call.grid_len += 1,
        7 => call.mode = bad_mode(rng),
        10 => match rng.below(3) {
            0 => call.radius.clear(),
            1 => call.limit.clear(),
            _ => break_one(rng, call, 5),
        },
        11 => break_one(rng, call, 7 + (way / 12 % 2) as u32),
        _ => (),
    }
}

/// How many ways to go wrong a rule's line has.
pub const WAYS: u64 = 21;

const KEYS: [&[u8]; 8] =
    [b"rules=", b"Rule=", b"RULE=", b"rul=", b"role=", b" rule=", b"rule =", b"rule"];

/// Breaks the line of the rule of a text in form, or sets it where it may not stand.
/// The ways come in turn.
pub fn break_line(rng: &mut Rng, text: &mut Vec<u8>, way: u64) {
    let is_rule = |line: &Vec<u8>| line.starts_with(b"rule=");
    let lines = text.split_inclusive(|byte| *byte == b'\n').map(<[u8]>::to_vec);
    let mut lines: Vec<Vec<u8>> = lines.filter(|line| !is_rule(line)).collect();
    let smooth = lines.iter().position(|line| line.starts_with(b"smooth=")).unwrap_or(0);
    let good: &[u8] = rng.pick(&[b"rule=1\n", b"rule=2\n", b"rule=2\n"]);
    let with = |value: &[u8]| [b"rule=", value, b"\n"].concat();
    let line = match way % WAYS {
        0 => with(b"0"),
        1 => with(b"3"),
        2 => {
            with(rng.pick(&[&b"4"[..], b"10", b"12", b"21", b"22", b"256", b"257", b"4294967295"]))
        }
        3 => with(rng.pick(&[&b"01"[..], b"02", b"001", b"002"])),
        4 => with(rng.pick(&[&b"-1"[..], b"-2", b"-0"])),
        5 => with(rng.pick(&[&b"+1"[..], b"+2"])),
        6 => with(b""),
        7 => with(rng.pick(&[
            &b"two"[..],
            b"x",
            b"1x",
            b"2a",
            b"0x1",
            b"1e0",
            b"M",
            b"open",
            b"1.0",
        ])),
        // In 32 bits, or in 64, these are 1 or 2.
        8 => with(rng.pick(&[
            &b"4294967297"[..],
            b"4294967298",
            b"18446744073709551617",
            b"18446744073709551618",
        ])),
        9 => with(rng.pick(&[&b"1,1"[..], b"2,1", b"1,", b",2", b"1,2"])),
        10 => with(rng.pick(&[&b" 1"[..], b"2 ", b"2\r", b"1\t", b"2\0", b"\xC2\xB2"])),
        20 => with(rng.pick(&[&b"4294967296"[..], b"9999999999", b"99999999999999999999"])),
        11 => [rng.pick(&KEYS), &good[5..]].concat(),
        _ => good.to_vec(),
    };
    let (before, after, last) = (smooth, smooth + 2, lines.len());
    match way % WAYS {
        12 | 13 => lines.insert(before, line),
        14 | 15 => lines.insert(after, line),
        16 => lines.splice(smooth + 1..smooth + 1, [line.clone(), line]).for_each(drop),
        17 => {
            // The text ends in the line of the rule, or that has no end of its own.
            let unended = line[..line.len() - 1].to_vec();
            if rng.one_in(2) {
                lines.truncate(smooth + 1);
            }
            lines.insert(smooth + 1, unended);
        }
        18 => lines.insert(rng.pick(&[0, 1, after + 1, last]), line),
        19 => {
            // One in its place, and another in none.
            lines.insert(smooth + 1, line.clone());
            lines.insert(rng.pick(&[before, after + 1]), line);
        }
        _ => lines.insert(smooth + 1, line),
    }
    *text = lines.concat();
}
