//! The line of the buddy check with one planted fault each, for `faulty`'s subject.

use crate::faulty_buddies::{tamed, BuddyFault};
use second::call::{Buddy, Call, Refusal};
use second::scheme::run;
use second::text::{decide, print};

#[derive(Clone, Copy, Debug, PartialEq, Eq)]
pub enum LineFault {
    /// What is let pass.
    BeforeTheScans,
    BetweenScans,
    AmongRows,
    AfterTheRows,
    Doubled,
    TheLastOfTwoCounts,
    OneNumber,
    ThreeNumbers,
    LeadingZero,
    Plus,
    MinusZero,
    Space,
    Empty,
    Wraps,
    /// What is made of it.
    Unread,
    Needed,
    OnWhereLeftOut,
    Exchanged,
    NineForOutOfRange,
    SixForNotFitting,
    NextLineRefused,
    AbsentLineCounted,
    BeforeTheForm,
}

use LineFault::*;

pub const ALL: [LineFault; 23] = [
    BeforeTheScans,
    BetweenScans,
    AmongRows,
    AfterTheRows,
    Doubled,
    TheLastOfTwoCounts,
    OneNumber,
    ThreeNumbers,
    LeadingZero,
    Plus,
    MinusZero,
    Space,
    Empty,
    Wraps,
    Unread,
    Needed,
    OnWhereLeftOut,
    Exchanged,
    NineForOutOfRange,
    SixForNotFitting,
    NextLineRefused,
    AbsentLineCounted,
    BeforeTheForm,
];

/// The answer to a text, with a fault of the check's line.
pub fn text(request: &[u8], fault: LineFault) -> Vec<u8> {
    let lines: Vec<&[u8]> = request.split_inclusive(|byte| *byte == b'\n').collect();
    let line = lines.iter().position(|line| line.starts_with(b"buddy="));
    let mut answer = decide(&as_read(&lines, fault)).map(|(call, _)| {
        let call = taken(call, fault);
        let analysis = run(&call);
        (call, analysis)
    });
    if let Err(refusal) = &mut answer {
        let at = lines.get((refusal.place as usize).wrapping_sub(1));
        let nine = refusal.number == 9;
        let at_line = nine && at.is_some_and(|line| line.starts_with(b"buddy="));
        let place = line.map_or(0, |line| line as u32 + 1);
        match fault {
            NineForOutOfRange if *refusal == Refusal::new(6, 6) => {
                *refusal = Refusal::new(9, place);
            }
            SixForNotFitting if at_line && at.is_some_and(|line| is_whole(line)) => {
                *refusal = Refusal::new(6, 6);
            }
            NextLineRefused if at_line => refusal.place += 1,
            AbsentLineCounted if nine && line.is_none() && refusal.place > 7 => refusal.place += 1,
            BeforeTheForm if nine && line.is_some_and(|line| is_bad(lines[line])) => {
                *refusal = Refusal::new(6, 6);
            }
            _ => (),
        }
    }
    if fault == Needed && answer.is_ok() && line.is_none() {
        answer = Err(Refusal::new(9, 7));
    }
    print(&answer)
}

/// The call as somebody goes on with it.
fn taken(call: Call, fault: LineFault) -> Call {
    match fault {
        Unread => Call { buddy: None, ..call },
        OnWhereLeftOut => Call { buddy: call.buddy.or(Some(Buddy::on(128, 20))), ..call },
        Exchanged => tamed(&call, BuddyFault::Exchanged),
        _ => call,
    }
}

fn numbers(line: &[u8]) -> Option<Vec<i128>> {
    let value = line.strip_prefix(b"buddy=")?.strip_suffix(b"\n")?;
    let fields = value.split(|byte| *byte == b',');
    let numbers = fields.map(|field| String::from_utf8_lossy(field).parse::<i128>().ok());
    numbers.collect()
}

/// Two whole numbers, whatever their size.
fn is_whole(line: &[u8]) -> bool {
    numbers(line).is_some_and(|numbers| numbers.len() == 2)
}

/// Two numbers of which one is out of range.
fn is_bad(line: &[u8]) -> bool {
    numbers(line).is_some_and(|numbers| {
        numbers.len() == 2
            && (!(1..=512).contains(&numbers[0]) || !(0..=2_000_000).contains(&numbers[1]))
    })
}

/// The text as somebody reads it who lets more pass: as the one that is in form.
fn as_read(lines: &[&[u8]], fault: LineFault) -> Vec<u8> {
    let mut lines: Vec<Vec<u8>> = lines.iter().map(|line| line.to_vec()).collect();
    let is_check = |line: &Vec<u8>| line.starts_with(b"buddy=");
    let checks: Vec<usize> = (0..lines.len()).filter(|at| is_check(&lines[*at])).collect();
    let Some(at) = checks.first().copied() else {
        return lines.concat();
    };
    let key = |at: Option<usize>, key: &[u8]| {
        at.and_then(|at| lines.get(at)).is_some_and(|line| line.starts_with(key))
    };
    let (before, after) = (at.checked_sub(1), Some(at + 1));
    let moves = match fault {
        BeforeTheScans => key(after, b"scans=") || key(before, b"scans="),
        BetweenScans => key(before, b"scan=") && key(after, b"scan="),
        AmongRows => key(before, b"row=") && key(after, b"row="),
        AfterTheRows => key(before, b"row=") && key(after, b"stations="),
        _ => false,
    };
    match fault {
        Doubled if key(after, b"buddy=") => drop(lines.remove(at + 1)),
        TheLastOfTwoCounts if key(after, b"buddy=") => drop(lines.remove(at)),
        _ if moves && checks.len() == 1 => {
            let line = lines.remove(at);
            let row = lines.iter().position(|line| line.starts_with(b"row="));
            lines.insert(row.unwrap_or(at), line);
        }
        _ => lines[at] = forgiven(&lines[at], fault),
    }
    lines.concat()
}

/// The line as one in form, where that is all that is wrong with it.
fn forgiven(line: &[u8], fault: LineFault) -> Vec<u8> {
    let value = line.strip_prefix(b"buddy=").and_then(|value| value.strip_suffix(b"\n"));
    let Some(value) = value else {
        return line.to_vec();
    };
    let text = String::from_utf8_lossy(value);
    let mut fields: Vec<String> = text.split(',').map(str::to_string).collect();
    match fault {
        OneNumber if fields.len() == 1 => fields.push("0".to_string()),
        ThreeNumbers => fields.truncate(2),
        Empty => fields.iter_mut().filter(|field| field.is_empty()).for_each(|f| f.push('0')),
        _ => fields.iter_mut().for_each(|field| *field = read(field, fault)),
    }
    format!("buddy={}\n", fields.join(",")).into_bytes()
}

/// A number that somebody reads who reads too much.
fn read(field: &str, fault: LineFault) -> String {
    let number = field.parse::<i128>().ok();
    match fault {
        LeadingZero if field.len() > 1 && field.starts_with('0') => {
            number.map_or(field.to_string(), |number| number.to_string())
        }
        Plus => field.trim_start_matches('+').to_string(),
        MinusZero if field == "-0" => "0".to_string(),
        Space => field.trim_matches(' ').to_string(),
        Wraps => number.map_or(field.to_string(), |number| (number as i32).to_string()),
        _ => field.to_string(),
    }
}
