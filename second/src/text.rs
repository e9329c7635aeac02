//! Request text in, answer text out, byte for byte.

use crate::call::{Analysis, Buddy, Call, Refusal};
use crate::scheme::analyse;
use crate::units::{DEFAULT_AGE, MISSING, MOST_STATIONS, MOST_TEXT, NO_END, RULES, SCANS, SIDE};
use std::fmt::Display;
use std::ops::RangeInclusive;

/// The answer to a request text.
pub fn answer(text: &[u8]) -> Vec<u8> {
    print(&decide(text))
}

/// The request of a text and its analysis, or the refusal: 10, then 9, then
/// the rest.
pub fn decide(text: &[u8]) -> Result<(Call, Analysis), Refusal> {
    let call = parse(text)?;
    let analysis = analyse(&call)?;
    Ok((call, analysis))
}

pub fn print(outcome: &Result<(Call, Analysis), Refusal>) -> Vec<u8> {
    let (call, analysis) = match outcome {
        Ok(accepted) => accepted,
        Err(refusal) => {
            return format!("refusal={}\nplace={}\n", refusal.number, refusal.place).into_bytes();
        }
    };
    let mut lines = String::from("refusal=0\nplace=0\n");
    for row in analysis.grid.chunks(call.shape().nx) {
        lines += &line("row", row);
    }
    for row in analysis.support.chunks(call.shape().nx) {
        lines += &line("sup", row);
    }
    lines += &line("ver", &analysis.verdict);
    lines.into_bytes()
}

/// One line, key=value with its line feed.
pub fn line<T: Display>(key: &str, numbers: &[T]) -> String {
    let numbers: Vec<String> = numbers.iter().map(T::to_string).collect();
    format!("{key}={}\n", numbers.join(","))
}

/// The call that a request text stands for, or refusal 10 or 9.
pub fn parse(text: &[u8]) -> Result<Call, Refusal> {
    if text.len() > MOST_TEXT {
        return Err(Refusal::new(10, 0));
    }
    let mut lines = Lines { rest: text, number: 0 };
    let mut call = parse_head(&mut lines)?;
    for _ in 0..call.scans {
        let plan = lines.numbers::<i32>("scan", 2)?;
        call.radius.push(plan[0]);
        call.limit.push(plan[1]);
    }
    if lines.rest.starts_with(b"buddy=") {
        let numbers = lines.numbers::<i32>("buddy", 2)?;
        call.buddy = Some(Buddy::on(numbers[0], numbers[1]));
    }
    for _ in 0..call.ny {
        let row = lines.numbers::<i32>("row", call.nx as usize)?;
        call.first_guess.extend(row);
    }
    let stations = lines.counts("stations", 1, 0..=MOST_STATIONS as u32)?[0];
    for _ in 0..stations {
        parse_station(&mut lines, &mut call)?;
    }
    lines.end()?;
    call.fit_results();
    Ok(call)
}

/// The lines before the plan, as a call without points and stations.
fn parse_head(lines: &mut Lines) -> Result<Call, Refusal> {
    let grid = lines.counts("grid", 2, SIDE)?;
    let time = lines.numbers::<u32>("time", 1)?[0];
    let age = if lines.rest.starts_with(b"age=") {
        lines.numbers::<u32>("age", 1)?[0]
    } else {
        DEFAULT_AGE
    };
    let smooth = lines.counts("smooth", 1, 0..=1)?[0] == 1;
    let rule = if lines.rest.starts_with(b"rule=") {
        Some(lines.counts("rule", 1, RULES)?[0])
    } else {
        None
    };
    let scans = lines.counts("scans", 1, SCANS)?[0];
    let (nx, ny) = (grid[0], grid[1]);
    Ok(Call { nx, ny, time, age, smooth, rule, scans, ..Call::default() })
}

fn parse_station(lines: &mut Lines, call: &mut Call) -> Result<(), Refusal> {
    let fields = lines.fields("st", 6)?;
    let bad = lines.not_in_form();
    call.x.push(whole(fields[0]).ok_or(bad)?);
    call.y.push(whole(fields[1]).ok_or(bad)?);
    call.value.push(marked(fields[2], b"M", MISSING).ok_or(bad)?);
    call.observed.push(whole(fields[3]).ok_or(bad)?);
    call.from.push(whole(fields[4]).ok_or(bad)?);
    call.until.push(marked(fields[5], b"open", NO_END).ok_or(bad)?);
    Ok(())
}

/// The lines of a text, taken one after the other.
struct Lines<'a> {
    rest: &'a [u8],
    /// The line taken last, counted from 1 on the text as it stands.
    number: u32,
}

impl<'a> Lines<'a> {
    fn not_in_form(&self) -> Refusal {
        Refusal::new(9, self.number)
    }

    fn demand(&self, in_form: bool) -> Result<(), Refusal> {
        if in_form {
            Ok(())
        } else {
            Err(self.not_in_form())
        }
    }

    /// The fields of the next line, which must be there, be ended by a line
    /// feed, have the key and as many fields as asked.
    fn fields(&mut self, key: &str, count: usize) -> Result<Vec<&'a [u8]>, Refusal> {
        self.number += 1;
        let bad = self.not_in_form();
        let end = self.rest.iter().position(|byte| *byte == b'\n').ok_or(bad)?;
        let line = &self.rest[..end];
        self.rest = &self.rest[end + 1..];
        let value = line.strip_prefix(key.as_bytes()).ok_or(bad)?;
        let value = value.strip_prefix(b"=").ok_or(bad)?;
        let fields: Vec<&[u8]> = value.split(|byte| *byte == b',').collect();
        self.demand(fields.len() == count)?;
        Ok(fields)
    }

    fn numbers<T: TryFrom<i64>>(&mut self, key: &str, count: usize) -> Result<Vec<T>, Refusal> {
        let fields = self.fields(key, count)?;
        let numbers: Option<Vec<T>> = fields.into_iter().map(whole).collect();
        numbers.ok_or(self.not_in_form())
    }

    fn counts(
        &mut self,
        key: &str,
        count: usize,
        range: RangeInclusive<u32>,
    ) -> Result<Vec<u32>, Refusal> {
        let counts = self.numbers(key, count)?;
        self.demand(counts.iter().all(|number| range.contains(number)))?;
        Ok(counts)
    }

    /// Surplus bytes are refused at the line where they begin.
    fn end(&mut self) -> Result<(), Refusal> {
        self.number += 1;
        self.demand(self.rest.is_empty())
    }
}

/// A decimal number of the type: no plus, no leading zero, no -0. Longer than
/// ten digits fits neither i32 nor u32.
fn whole<T: TryFrom<i64>>(field: &[u8]) -> Option<T> {
    let (negative, digits) = match field.strip_prefix(b"-") {
        Some(digits) => (true, digits),
        None => (false, field),
    };
    let zero_ahead = digits.first() == Some(&b'0') && (negative || digits.len() > 1);
    let decimal = (1..=10).contains(&digits.len()) && digits.iter().all(u8::is_ascii_digit);
    if zero_ahead || !decimal {
        return None;
    }
    let size = digits.iter().fold(0, |size, digit| 10 * size + i64::from(digit - b'0'));
    T::try_from(if negative { -size } else { size }).ok()
}

/// A number that may also be written as a word.
fn marked<T: TryFrom<i64>>(field: &[u8], word: &[u8], meaning: T) -> Option<T> {
    if field == word {
        Some(meaning)
    } else {
        whole(field)
    }
}
