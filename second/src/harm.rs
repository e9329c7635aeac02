//! Harm done to request texts in turn: every harm to every kind of line, every
//! way to write a number to every field, and harm to a text as a whole. Some
//! leave a text in form. Each is counted by its name and number.

use crate::rng::Rng;
use crate::sorts::Sort;
use crate::tally::Floor;

/// The least of each harm to each line or field in a full run.
const LEAST: u64 = 10;

const KEYS: [&str; 11] =
    ["grid", "time", "age", "smooth", "rule", "scans", "scan", "buddy", "row", "stations", "st"];

macro_rules! by_line {
    ($harm:literal) => {
        concat!($harm, " (grid, time, age, smooth, rule, scans, scan, buddy, row, stations, st)")
    };
}

macro_rules! by_field {
    ($harm:literal) => {
        concat!(
            $harm,
            " (nx, ny, time, age, smooth, rule, scans, R, E, B, L, row, stations, \
             x, y, value, observed, from, until)"
        )
    };
}

const WHOLE: &str = "text with (a trailing letter, space, NUL, high byte, line feed, CR LF, \
    half a line, line, no last line feed, CR LF, leading bytes, no lines, half its bytes)";
const WHOLE_HARMS: usize = 13;

/// A text as its lines, each with its line feed.
type Lines = Vec<Vec<u8>>;
type LineHarm = fn(&mut Rng, &mut Lines, usize);

const LINE_HARMS: [(&str, LineHarm); 14] = [
    (by_line!("line dropped"), |_, lines, at| drop(lines.remove(at))),
    (by_line!("line doubled"), |_, lines, at| lines.insert(at, lines[at].clone())),
    (by_line!("line swapped"), swap_with_neighbour),
    (by_line!("line joined to the next"), |_, lines, at| join(&mut lines[at])),
    (by_line!("line with CR LF"), |_, lines, at| insert_before_end(&mut lines[at], b'\r')),
    (by_line!("line with a space"), |rng, lines, at| put(rng, &mut lines[at], b' ')),
    (by_line!("line with a NUL"), |rng, lines, at| put(rng, &mut lines[at], 0)),
    (by_line!("line with a high byte"), put_high),
    (by_line!("line with its key in capitals"), |_, lines, at| lines[at].make_ascii_uppercase()),
    (by_line!("line with a field more"), |_, lines, at| add_field(&mut lines[at])),
    (by_line!("line with a field less"), |_, lines, at| drop_field(&mut lines[at])),
    (by_line!("line broken inside a number"), break_number),
    (by_line!("text cut inside a number"), cut_inside_number),
    (by_line!("text cut before the line feed"), cut_before_line_feed),
];

/// A field by its line and place, its range, and the range of its type.
struct Field {
    key: usize,
    at: usize,
    range: [i64; 2],
    of_type: [i64; 2],
}

const I32: [i64; 2] = [i32::MIN as i64, i32::MAX as i64];
const U32: [i64; 2] = [0, u32::MAX as i64];

const fn number(key: usize, at: usize, low: i64, high: i64) -> Field {
    Field { key, at, range: [low, high], of_type: I32 }
}

const fn minute(key: usize, at: usize) -> Field {
    Field { key, at, range: U32, of_type: U32 }
}

const FIELDS: [Field; 19] = [
    number(0, 0, 2, 64),
    number(0, 1, 2, 64),
    minute(1, 0),
    minute(2, 0),
    number(3, 0, 0, 1),
    number(4, 0, 1, 2),
    number(5, 0, 1, 6),
    number(6, 0, 1, 1024),
    number(6, 1, 0, 2_000_000),
    number(7, 0, 1, 512),
    number(7, 1, 0, 2_000_000),
    number(8, 0, -1_000_000, 1_000_000),
    number(9, 0, 0, 512),
    number(10, 0, -1_000_000, 1_000_000),
    number(10, 1, -1_000_000, 1_000_000),
    number(10, 2, -1_000_000, 1_000_000),
    minute(10, 3),
    minute(10, 4),
    minute(10, 5),
];
/// Any point of a row may be harmed, not its first alone.
const ROW: usize = 8;

/// The new way to write a field, from the old one.
type NumberHarm = fn(&mut Rng, &Field, &[u8]) -> Vec<u8>;

const NUMBER_HARMS: [(&str, NumberHarm); 10] = [
    (by_field!("number with a plus"), |_, _, old| [b"+", old].concat()),
    (by_field!("number with a leading zero"), |_, _, old| zero_ahead(old)),
    (by_field!("number as -0"), |_, _, _| b"-0".to_vec()),
    (by_field!("number left empty"), |_, _, _| Vec::new()),
    (by_field!("number one below its range"), |_, field, _| decimal(field.range[0] - 1)),
    (by_field!("number one above its range"), |_, field, _| decimal(field.range[1] + 1)),
    (by_field!("number on a bound"), |rng, field, _| decimal(rng.pick(&field.range))),
    (by_field!("number one outside its type"), |rng, field, _| {
        decimal(rng.pick(&[field.of_type[0] - 1, field.of_type[1] + 1]))
    }),
    (by_field!("number that wraps to what it was"), |rng, _, old| wrapped(rng, old)),
    (by_field!("number as a word"), |rng, _, _| {
        rng.pick(&[&b"M"[..], b"open", b"m", b"Open", b"1e3", b"0x1", b"1.5", b"-", b"--1"])
            .to_vec()
    }),
];

fn turns() -> usize {
    LINE_HARMS.len() * KEYS.len() + NUMBER_HARMS.len() * FIELDS.len() + WHOLE_HARMS
}

pub fn floors() -> Vec<Floor> {
    let lines = LINE_HARMS.iter().map(|(name, _)| (*name, KEYS.len()));
    let fields = NUMBER_HARMS.iter().map(|(name, _)| (*name, FIELDS.len()));
    let all = lines.chain(fields).chain([(WHOLE, WHOLE_HARMS)]);
    let numbered = all.flat_map(|(name, numbers)| (0..numbers).map(move |n| (name, n as u32)));
    numbered.map(|(name, number)| Floor::times(name, number, LEAST)).collect()
}

/// Harms a request text in the way whose turn it is. Every kind of line must
/// be there, `age`, `rule`, `buddy` and a station too.
pub fn harm(rng: &mut Rng, text: &mut Vec<u8>, turn: u64) -> Sort {
    let turn = (turn % turns() as u64) as usize;
    let of_lines = LINE_HARMS.len() * KEYS.len();
    let of_fields = NUMBER_HARMS.len() * FIELDS.len();
    if turn < of_lines {
        let ((name, harm), key) = (&LINE_HARMS[turn / KEYS.len()], turn % KEYS.len());
        let mut lines = lines_of(text);
        let at = line_of(rng, &lines, key);
        harm(rng, &mut lines, at);
        *text = lines.concat();
        (name, key as u32)
    } else if turn < of_lines + of_fields {
        let turn = turn - of_lines;
        let ((name, harm), field) = (&NUMBER_HARMS[turn / FIELDS.len()], turn % FIELDS.len());
        harm_number(rng, text, &FIELDS[field], harm);
        (name, field as u32)
    } else {
        let way = turn - of_lines - of_fields;
        harm_whole(rng, text, way);
        (WHOLE, way as u32)
    }
}

fn lines_of(text: &[u8]) -> Lines {
    text.split_inclusive(|byte| *byte == b'\n').map(<[u8]>::to_vec).collect()
}

/// A line with the key, any of them where there are many.
fn line_of(rng: &mut Rng, lines: &Lines, key: usize) -> usize {
    let opening = [KEYS[key].as_bytes(), b"="].concat();
    let has_key = |at: &usize| lines[*at].starts_with(&opening);
    rng.pick(&(0..lines.len()).filter(has_key).collect::<Vec<_>>())
}

fn swap_with_neighbour(_: &mut Rng, lines: &mut Lines, at: usize) {
    let other = if at + 1 < lines.len() { at + 1 } else { at - 1 };
    lines.swap(at, other);
}

fn join(line: &mut Vec<u8>) {
    line.pop();
}

fn insert_before_end(line: &mut Vec<u8>, byte: u8) {
    line.insert(line.len() - 1, byte);
}

/// One more byte anywhere before the line feed, or in place of one there.
fn put(rng: &mut Rng, line: &mut Vec<u8>, byte: u8) {
    let at = rng.below(line.len());
    if rng.one_in(2) || at == line.len() - 1 {
        line.insert(at, byte);
    } else {
        line[at] = byte;
    }
}

/// Any byte of eight bits; in half of the lines one that is like the old one in seven.
fn put_high(rng: &mut Rng, lines: &mut Lines, at: usize) {
    let byte = rng.between(128, 255) as u8;
    if rng.one_in(2) {
        let inside = rng.below(lines[at].len() - 1);
        lines[at][inside] |= 128;
    } else {
        put(rng, &mut lines[at], byte);
    }
}

fn add_field(line: &mut Vec<u8>) {
    let end = line.len() - 1;
    line.splice(end..end, *b",1");
}

fn drop_field(line: &mut Vec<u8>) {
    let last = line.iter().rposition(|byte| b"=,".contains(byte)).unwrap_or(0);
    line.drain(last..line.len() - 1);
}

/// A place inside one of the line's numbers; before it if it has one byte.
fn inside_number(rng: &mut Rng, line: &[u8]) -> usize {
    let ends_field = |at: &usize| b"=,\n".contains(&line[*at]);
    let ends: Vec<usize> = (0..line.len()).filter(ends_field).collect();
    let longest = rng.below(ends.len() - 1);
    let (start, end) = (ends[longest] + 1, ends[longest + 1]);
    if end - start < 2 {
        start
    } else {
        start + 1 + rng.below(end - start - 1)
    }
}

fn break_number(rng: &mut Rng, lines: &mut Lines, at: usize) {
    let inside = inside_number(rng, &lines[at]);
    lines[at].insert(inside, b'\n');
}

fn cut_inside_number(rng: &mut Rng, lines: &mut Lines, at: usize) {
    let inside = inside_number(rng, &lines[at]);
    lines.truncate(at + 1);
    lines[at].truncate(inside);
}

fn cut_before_line_feed(_: &mut Rng, lines: &mut Lines, at: usize) {
    lines.truncate(at + 1);
    lines[at].pop();
}

fn decimal(number: i64) -> Vec<u8> {
    number.to_string().into_bytes()
}

fn zero_ahead(old: &[u8]) -> Vec<u8> {
    match old.strip_prefix(b"-") {
        Some(digits) => [b"-0", digits].concat(),
        None => [b"0", old].concat(),
    }
}

/// The number plus or less 2^32 or 2^64: it wraps to what it was, or to what
/// its mark would have been.
fn wrapped(rng: &mut Rng, old: &[u8]) -> Vec<u8> {
    let old = String::from_utf8_lossy(old).parse::<i128>().unwrap_or(0);
    let turn = rng.pick(&[1_i128 << 32, 1 << 64]);
    (old + rng.pick(&[turn, -turn])).to_string().into_bytes()
}

fn harm_number(rng: &mut Rng, text: &mut Vec<u8>, field: &Field, harm: &NumberHarm) {
    let mut lines = lines_of(text);
    let at = line_of(rng, &lines, field.key);
    let line = &lines[at];
    let start = KEYS[field.key].len() + 1;
    let values = line[start..line.len() - 1].split(|byte| *byte == b',');
    let mut values: Vec<Vec<u8>> = values.map(<[u8]>::to_vec).collect();
    let place = if field.key == ROW { rng.below(values.len()) } else { field.at };
    values[place] = harm(rng, field, &values[place]);
    lines[at] = [&line[..start], &values.join(&b','), b"\n"].concat();
    *text = lines.concat();
}

fn harm_whole(rng: &mut Rng, text: &mut Vec<u8>, way: usize) {
    match way {
        0 => text.push(b'x'),
        1 => text.push(b' '),
        2 => text.push(0),
        3 => text.push(rng.between(128, 255) as u8),
        4 => text.push(b'\n'),
        5 => text.extend(b"\r\n"),
        6 => text.extend(b"st=0,0,0"),
        7 => text.extend(rng.pick(&[&b"st=0,0,0,0,0,1\n"[..], b"stations=0\n", b"row=0\n"])),
        8 => text.truncate(text.len() - 1),
        9 => *text = text.iter().flat_map(with_carriage_return).copied().collect(),
        10 => {
            let ahead = rng.pick(&[&b"\xEF\xBB\xBF"[..], b"\n", b" ", b"\0"]);
            *text = [ahead, text].concat();
        }
        11 => text.clear(),
        _ => text.truncate(text.len() / 2),
    }
}

fn with_carriage_return(byte: &u8) -> &[u8] {
    match byte {
        b'\n' => b"\r\n",
        _ => std::slice::from_ref(byte),
    }
}
