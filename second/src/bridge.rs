//! The archive libclause.a as a subject. It is x86-64 code and this program
//! runs on any processor, so its calls are made by a program of their own,
//! the bridge, over pipes. `bridge/bridge.c` has the protocol.

use crate::call::{Buddy, Call, Query, Screen, Window, Winds};
use crate::compare::{Answer, Results, Subject};
use crate::patterned::BYTE_PATTERN;
use crate::running::{put_numbers, read_number, Greeting, Lasting};
use crate::summary::Summary;
use std::io::{self, Read};

const ANALYSE: u32 = 1;
const WINDOW: u32 = 2;
const KIND: u32 = 3;
const VALUE: u32 = 4;
const SUMMARY: u32 = 5;
const WINDOWS: u32 = 6;
static GREETING: Greeting = Greeting { name: "the bridge", number: 0x536F_736E };

/// What the lowest bits of the flags stand for; one for each result, then one
/// for each column.
const RESULTS: [&str; 3] = ["grid", "support", "verdict"];
const COLUMNS: &[&str] = &[
    "first_guess",
    "x",
    "y",
    "value",
    "observed",
    "from",
    "until",
    "wind_u",
    "wind_v",
    "radius",
    "limit",
];
/// A screen has four columns after those.
const ENDS: [&str; 4] = ["left", "right", "top", "bottom"];
/// A reading and a summary have no results.
const QUERY_COLUMNS: [&str; 2] = ["field", "support"];

/// What a C caller hands over as the address of an empty slice. Its length is
/// 0, so the address must not be followed.
#[derive(Clone, Copy, Debug, Default, PartialEq, Eq)]
pub enum Empty {
    /// An aligned address that is not null.
    #[default]
    Dangling,
    Null,
}

/// The archive behind a bridge that runs over all calls.
pub struct Bridge {
    empty: Empty,
    program: Lasting,
}

impl Bridge {
    /// Starts the bridge: a program and its arguments, split on spaces.
    pub fn start(command: &str, empty: Empty) -> Result<Self, String> {
        Ok(Bridge { empty, program: Lasting::start(command, &GREETING)? })
    }

    fn ask_request(&self, request: &[u8], results: Results, columns: &[&str]) -> Answer<u32> {
        let (code, flags) = self.program.ask(request, |output| read_answer(output, results))?;
        seen_by_bridge(flags, &RESULTS, columns).map_or(Ok(code), Err)
    }

    fn ask_query<T>(&self, request: &[u8], read: Reader<T>) -> Answer<T> {
        let (answer, flags) =
            self.program.ask(request, |output| Ok((read(output)?, read_number(output)?)))?;
        seen_by_bridge(flags, &[], &QUERY_COLUMNS).map_or(Ok(answer), Err)
    }
}

impl Subject for Bridge {
    fn analyse(&self, call: &Call, results: Results) -> Answer<u32> {
        let request = analyse_request(call, &results, self.empty);
        self.ask_request(&request, results, COLUMNS)
    }

    fn window(&self, call: &Call, window: &Window, results: Results) -> Answer<u32> {
        let request = window_request(call, window, &results, self.empty);
        self.ask_request(&request, results, COLUMNS)
    }

    fn windows(&self, call: &Call, screen: &Screen, results: Results) -> Answer<u32> {
        let request = windows_request(call, screen, &results, self.empty);
        self.ask_request(&request, results, &[COLUMNS, &ENDS].concat())
    }

    fn reading_kind(&self, query: &Query) -> Answer<u32> {
        self.ask_query(&reading_request(KIND, query, self.empty), read_number)
    }

    fn reading_value(&self, query: &Query) -> Answer<f64> {
        self.ask_query(&reading_request(VALUE, query, self.empty), read_double)
    }

    fn summary(&self, query: &Query) -> Answer<Summary> {
        self.ask_query(&summary_request(query, self.empty), read_summary)
    }
}

fn analyse_request(call: &Call, results: &Results, empty: Empty) -> Vec<u8> {
    let mut bytes = Vec::new();
    put_opening(&mut bytes, ANALYSE, empty);
    put_plain(&mut bytes, call);
    put_columns(&mut bytes, call);
    let Results { grid, support, verdict } = results;
    put_numbers(&mut bytes, &[grid.len(), support.len(), verdict.len()].map(length));
    bytes
}

fn window_request(call: &Call, window: &Window, results: &Results, empty: Empty) -> Vec<u8> {
    let Window { left, right, top, bottom } = *window;
    let mut bytes = Vec::new();
    put_opening(&mut bytes, WINDOW, empty);
    put_plain(&mut bytes, call);
    put_numbers(&mut bytes, &[left, right, top, bottom]);
    put_columns(&mut bytes, call);
    put_numbers(&mut bytes, &[results.grid.len(), results.support.len()].map(length));
    bytes
}

fn windows_request(call: &Call, screen: &Screen, results: &Results, empty: Empty) -> Vec<u8> {
    let mut bytes = Vec::new();
    put_opening(&mut bytes, WINDOWS, empty);
    put_plain(&mut bytes, call);
    put_columns(&mut bytes, call);
    for column in screen.columns() {
        put_column(&mut bytes, column, u32::to_le_bytes);
    }
    put_numbers(&mut bytes, &[results.grid.len(), results.support.len()].map(length));
    bytes
}

fn reading_request(function: u32, query: &Query, empty: Empty) -> Vec<u8> {
    let mut bytes = Vec::new();
    let null = u32::from(empty == Empty::Null);
    put_numbers(&mut bytes, &[function, null, query.nx, query.ny]);
    put_numbers(&mut bytes, &[query.x as u32, query.y as u32]);
    put_column(&mut bytes, &query.field, i32::to_le_bytes);
    put_numbers(&mut bytes, &[length(query.support.len())]);
    bytes.extend(&query.support);
    bytes
}

fn summary_request(query: &Query, empty: Empty) -> Vec<u8> {
    let mut bytes = Vec::new();
    let null = u32::from(empty == Empty::Null);
    put_numbers(&mut bytes, &[SUMMARY, null, query.nx, query.ny]);
    put_column(&mut bytes, &query.field, i32::to_le_bytes);
    bytes
}

fn put_opening(bytes: &mut Vec<u8>, function: u32, empty: Empty) {
    let null = u32::from(empty == Empty::Null);
    put_numbers(bytes, &[function, null, BYTE_PATTERN.into()]);
}

/// A rule that is left out is sent as 0, which is none, and a buddy check that is left
/// out as one that is on, with what it may not have; that they are left out is said after.
fn put_plain(bytes: &mut Vec<u8>, call: &Call) {
    let Buddy { on, radius, limit } = call.buddy.unwrap_or(Buddy::on(-1, -1));
    put_numbers(bytes, &[call.nx, call.ny, call.scans]);
    put_numbers(bytes, &[call.smooth.into(), call.mode, call.rule.unwrap_or(0)]);
    put_numbers(bytes, &[on.into(), radius as u32, limit as u32]);
    put_numbers(bytes, &[call.time, call.age]);
    put_numbers(bytes, &[call.winds.is_some().into(), call.rule.is_some().into()]);
    put_numbers(bytes, &[call.buddy.is_some().into()]);
}

/// Wind columns that are left out are sent as empty ones; that they are has been
/// said before.
fn put_columns(bytes: &mut Vec<u8>, call: &Call) {
    let none = Winds::default();
    let winds = call.winds.as_ref().unwrap_or(&none);
    put_column(bytes, &call.first_guess, i32::to_le_bytes);
    put_column(bytes, &call.x, i32::to_le_bytes);
    put_column(bytes, &call.y, i32::to_le_bytes);
    put_column(bytes, &call.value, i32::to_le_bytes);
    put_column(bytes, &call.observed, u32::to_le_bytes);
    put_column(bytes, &call.from, u32::to_le_bytes);
    put_column(bytes, &call.until, u32::to_le_bytes);
    put_column(bytes, &winds.u, i32::to_le_bytes);
    put_column(bytes, &winds.v, i32::to_le_bytes);
    put_column(bytes, &call.radius, i32::to_le_bytes);
    put_column(bytes, &call.limit, i32::to_le_bytes);
}

pub fn put_column<T: Copy>(bytes: &mut Vec<u8>, column: &[T], as_bytes: fn(T) -> [u8; 4]) {
    put_numbers(bytes, &[length(column.len())]);
    bytes.extend(column.iter().flat_map(|number| as_bytes(*number)));
}

fn length(length: usize) -> u32 {
    u32::try_from(length).expect("no column is that long")
}

/// Reads an answer, up to its flags.
type Reader<T> = fn(&mut dyn Read) -> io::Result<T>;

/// Fills the results in and gives the code and the flags.
fn read_answer(mut input: impl Read, results: Results) -> io::Result<(u32, u32)> {
    let code = read_number(&mut input)?;
    let flags = read_number(&mut input)?;
    for value in results.grid {
        *value = read_number(&mut input)? as i32;
    }
    input.read_exact(results.support)?;
    input.read_exact(results.verdict)?;
    Ok((code, flags))
}

fn read_double(input: &mut dyn Read) -> io::Result<f64> {
    let mut bytes = [0; 8];
    input.read_exact(&mut bytes)?;
    Ok(f64::from_le_bytes(bytes))
}

fn read_summary(input: &mut dyn Read) -> io::Result<Summary> {
    Ok(Summary {
        refusal: read_number(input)?,
        place: read_number(input)?,
        lowest: read_double(input)?,
        highest: read_double(input)?,
        span: read_double(input)?,
    })
}

/// The first thing that the flags say.
fn seen_by_bridge(flags: u32, results: &[&str], columns: &[&str]) -> Option<String> {
    let bit = (0..u32::BITS as usize).find(|bit| flags >> bit & 1 == 1)?;
    let column = bit.checked_sub(results.len()).and_then(|column| columns.get(column));
    Some(match (results.get(bit), column) {
        (Some(name), _) => format!("{name} is written outside its slice"),
        (None, Some(name)) => format!("the input {name} is changed by the call"),
        (None, None) => format!("the bridge answers with flags that mean nothing, {flags:#x}"),
    })
}

#[cfg(test)]
mod tests {
    use super::*;

    /// The bytes of a request as 32-bit numbers.
    fn numbers_of(request: &[u8]) -> Vec<u32> {
        let numbers = request.chunks(4).map(|bytes| bytes.try_into().expect("whole numbers"));
        numbers.map(u32::from_le_bytes).collect()
    }

    /// A call in which no two numbers are alike.
    fn call() -> Call {
        Call {
            nx: 1,
            ny: 2,
            first_guess: vec![-3],
            x: vec![4, i32::MIN],
            y: vec![5],
            value: vec![6],
            observed: vec![7, u32::MAX],
            from: vec![8],
            until: vec![9],
            winds: Some(Winds { u: vec![-21], v: vec![22, 23] }),
            scans: 10,
            radius: vec![11],
            limit: vec![],
            smooth: true,
            mode: 12,
            rule: Some(24),
            buddy: Some(Buddy { on: true, radius: -25, limit: 26 }),
            time: 13,
            age: 14,
            ..Call::default()
        }
    }

    #[test]
    fn every_argument_is_in_its_place() {
        let call = call();
        let results = Results { grid: &mut [0; 15], support: &mut [0; 16], verdict: &mut [0; 17] };
        let null = numbers_of(&analyse_request(&call, &results, Empty::Null));
        assert_eq!(null[..9], [1, 1, 0xA5, 1, 2, 10, 1, 12, 24]);
        assert_eq!(null[9..17], [1, 25_u32.wrapping_neg(), 26, 13, 14, 1, 1, 1]);
        assert_eq!(null[17..24], [1, 3_u32.wrapping_neg(), 2, 4, 0x8000_0000, 1, 5]);
        assert_eq!(null[24..33], [1, 6, 2, 7, u32::MAX, 1, 8, 1, 9]);
        assert_eq!(null[33..38], [1, 21_u32.wrapping_neg(), 2, 22, 23]);
        assert_eq!(null[38..], [1, 11, 0, 15, 16, 17]);
        let dangling = numbers_of(&analyse_request(&call, &results, Empty::Dangling));
        assert_eq!((dangling[1], &dangling[2..]), (0, &null[2..]));
    }

    #[test]
    fn winds_that_are_left_out_are_told_from_empty_ones() {
        let sent = |winds: Option<Winds>| {
            let results = Results { grid: &mut [], support: &mut [], verdict: &mut [] };
            numbers_of(&analyse_request(&Call { winds, ..call() }, &results, Empty::Null))
        };
        let (left_out, empty) = (sent(None), sent(Some(Winds::default())));
        assert_eq!((left_out[14], empty[14]), (0, 1));
        assert_eq!((left_out.len(), &left_out[15..]), (empty.len(), &empty[15..]));
        assert_eq!(empty[33..], [0, 0, 1, 11, 0, 0, 0, 0]);
    }

    #[test]
    fn a_rule_that_is_left_out_is_told_from_any_other() {
        let sent = |rule: Option<u32>| {
            let results = Results { grid: &mut [], support: &mut [], verdict: &mut [] };
            let numbers =
                numbers_of(&analyse_request(&Call { rule, ..call() }, &results, Empty::Null));
            (numbers[8], numbers[15], numbers.len())
        };
        let (rule, given, length) = sent(None);
        assert_eq!((rule, given), (0, 0));
        assert_eq!(
            [Some(0), Some(1), Some(u32::MAX)].map(sent),
            [0, 1, u32::MAX].map(|rule| (rule, 1, length))
        );
    }

    #[test]
    fn a_check_that_is_left_out_is_told_from_one_that_is_off() {
        let sent = |buddy: Option<Buddy>| {
            let results = Results { grid: &mut [], support: &mut [], verdict: &mut [] };
            let call = Call { buddy, ..call() };
            let numbers = numbers_of(&analyse_request(&call, &results, Empty::Null));
            (numbers[9..12].to_vec(), numbers[16], numbers.len())
        };
        let (numbers, given, length) = sent(None);
        assert_eq!((numbers, given), (vec![1, u32::MAX, u32::MAX], 0), "none may be read");
        assert_eq!(sent(Some(Buddy::default())), (vec![0; 3], 1, length));
        assert_eq!(sent(Some(Buddy::on(1, 2))), (vec![1, 1, 2], 1, length));
    }

    #[test]
    fn a_window_query_adds_its_ends_and_has_no_verdicts() {
        let window = Window::new(18, 19, 20, u32::MAX);
        let results = Results { grid: &mut [0; 15], support: &mut [0; 16], verdict: &mut [] };
        let whole = numbers_of(&analyse_request(&call(), &results, Empty::Null));
        let part = numbers_of(&window_request(&call(), &window, &results, Empty::Null));
        assert_eq!((part[0], &part[1..17]), (2, &whole[1..17]));
        assert_eq!(part[17..21], [18, 19, 20, u32::MAX]);
        assert_eq!(part[21..], whole[17..whole.len() - 1]);
    }

    #[test]
    fn a_screen_adds_its_columns_and_has_no_verdicts() {
        let screen = Screen {
            left: vec![18, 19],
            right: vec![],
            top: vec![20],
            bottom: vec![21, 22, u32::MAX],
        };
        let results = Results { grid: &mut [0; 15], support: &mut [0; 16], verdict: &mut [] };
        let whole = numbers_of(&analyse_request(&call(), &results, Empty::Null));
        let screen = numbers_of(&windows_request(&call(), &screen, &results, Empty::Null));
        let columns_end = whole.len() - 3;
        assert_eq!((screen[0], &screen[1..columns_end]), (6, &whole[1..columns_end]));
        let ends = [2, 18, 19, 0, 1, 20, 3, 21, 22, u32::MAX];
        assert_eq!(screen[columns_end..columns_end + 10], ends);
        assert_eq!(screen[columns_end + 10..], [15, 16]);
    }

    #[test]
    fn an_answer_is_read_to_its_end() {
        let answer =
            [1, 0, 8, 0, 4, 0, 0, 0, 0xFE, 0xFF, 0xFF, 0xFF, 7, 0, 0, 0x80, 21, 22, 31, 99];
        let read = |mut answer: &[u8]| {
            let (mut grid, mut support, mut verdict) = ([0; 2], [0; 2], [0; 1]);
            let results = Results { grid: &mut grid, support: &mut support, verdict: &mut verdict };
            let read = read_answer(&mut answer, results).ok()?;
            Some((read, grid, support, verdict, answer.to_vec()))
        };
        let given = ((0x0008_0001, 4), [-2, i32::MIN + 7], [21, 22], [31], vec![99]);
        assert_eq!(read(&answer), Some(given));
        assert_eq!(read(&answer[..18]), None, "a verdict is missing");
    }

    #[test]
    fn flags_name_what_was_written() {
        let said = |flags| seen_by_bridge(flags, &RESULTS, COLUMNS).unwrap_or_default();
        assert_eq!(seen_by_bridge(0, &RESULTS, COLUMNS), None);
        assert_eq!(said(0b1), "grid is written outside its slice");
        assert_eq!(said(0b100), "verdict is written outside its slice");
        assert_eq!(said(0b1000), "the input first_guess is changed by the call");
        assert_eq!(said(1 << 10), "the input wind_u is changed by the call");
        assert_eq!(said(1 << 13), "the input limit is changed by the call");
        assert_eq!(said(1 << 14), "the bridge answers with flags that mean nothing, 0x4000");
        let all = [COLUMNS, &ENDS].concat();
        let said = |flags| seen_by_bridge(flags, &RESULTS, &all).unwrap_or_default();
        assert_eq!(said(1 << 13), "the input limit is changed by the call");
        assert_eq!(said(1 << 14), "the input left is changed by the call");
        assert_eq!(said(1 << 17), "the input bottom is changed by the call");
        assert_eq!(said(1 << 18), "the bridge answers with flags that mean nothing, 0x40000");
        let said = |flags| seen_by_bridge(flags, &[], &QUERY_COLUMNS).unwrap_or_default();
        assert_eq!(said(0b10), "the input support is changed by the call");
        assert_eq!(said(0b100), "the bridge answers with flags that mean nothing, 0x4");
    }

    #[test]
    fn queries_are_in_their_places() {
        let query =
            Query { nx: 1, ny: 2, field: vec![-3, 4], support: vec![5, 6, 7, 8], x: -9, y: 10 };
        let numbers = numbers_of(&reading_request(VALUE, &query, Empty::Null));
        let [minus_3, minus_9] = [3_u32, 9].map(u32::wrapping_neg);
        assert_eq!(numbers, [4, 1, 1, 2, minus_9, 10, 2, minus_3, 4, 4, 0x0807_0605]);
        let numbers = numbers_of(&summary_request(&query, Empty::Dangling));
        assert_eq!(numbers, [5, 0, 1, 2, 2, minus_3, 4]);
    }
}
