//! A call written out again: as request text where a text can hold it,
//! otherwise as a listing of its arguments.

use crate::call::Call;
use crate::refusals::check_analysis;
use crate::text::line;
use crate::units::{DEFAULT_AGE, MISSING, NO_END, ROUND};

/// The choices that the text form leaves to its writer.
#[derive(Clone, Copy, Debug, Default)]
pub struct Style {
    /// The marks for missing and no end as digits, not as words.
    pub marks_as_digits: bool,
    /// No `age` line where the age is the default.
    pub age_left_out: bool,
}

/// The request text of a call. A text cannot say the faults of refusals 1 to
/// 5, it has no plan entries past the scan count, and it stays with the round
/// weight and without winds. A rule that is left out has no line, and neither has a buddy
/// check that is off.
pub fn request_text(call: &Call, style: Style) -> Option<Vec<u8>> {
    let sayable = match check_analysis(call) {
        Ok(()) => true,
        Err(refusal) => refusal.number >= 6,
    };
    let round = call.mode == ROUND && call.winds.is_none();
    (sayable && round).then(|| written_out(call, style).into_bytes())
}

/// The same, whether or not the text is in form.
pub fn written_out(call: &Call, style: Style) -> String {
    let mut text = line("grid", &[call.nx, call.ny]) + &line("time", &[call.time]);
    if !(style.age_left_out && call.age == DEFAULT_AGE) {
        text += &line("age", &[call.age]);
    }
    text += &line("smooth", &[u8::from(call.smooth)]);
    text += &call.rule.map(|rule| line("rule", &[rule])).unwrap_or_default();
    text += &line("scans", &[call.scans]);
    for (radius, limit) in call.radius.iter().zip(&call.limit).take(call.scans as usize) {
        text += &line("scan", &[radius, limit]);
    }
    if let Some(check) = call.check() {
        text += &line("buddy", &[check.radius, check.limit]);
    }
    for row in call.first_guess.chunks(call.nx as usize) {
        text += &line("row", row);
    }
    text += &line("stations", &[call.x.len()]);
    for row in 0..call.x.len() {
        text += &station_line(call, row, style);
    }
    text
}

fn station_line(call: &Call, row: usize, style: Style) -> String {
    let value = match call.value[row] {
        MISSING if !style.marks_as_digits => "M".to_string(),
        value => value.to_string(),
    };
    let until = match call.until[row] {
        NO_END if !style.marks_as_digits => "open".to_string(),
        until => until.to_string(),
    };
    let fields = [
        call.x[row].to_string(),
        call.y[row].to_string(),
        value,
        call.observed[row].to_string(),
        call.from[row].to_string(),
        until,
    ];
    line("st", &fields)
}

/// The call in a form that can be run again. A text would lose plan entries
/// past the scan count, and a buddy check that is given and off.
pub fn rerun_form(call: &Call) -> String {
    let scans = call.scans as usize;
    let plan_read = call.radius.len() <= scans && call.limit.len() <= scans;
    let all_read = plan_read && call.buddy == call.check();
    match request_text(call, Style::default()) {
        Some(text) if all_read => String::from_utf8_lossy(&text).into_owned(),
        _ => listing(call),
    }
}

/// Every argument on a line of its own, in the order of the C calls. Wind
/// columns, a rule and a buddy check that are left out have no lines.
pub fn listing(call: &Call) -> String {
    let winds = call.winds.iter().map(|winds| line("wind_u", &winds.u) + &line("wind_v", &winds.v));
    let buddy = call.buddy.iter().map(|buddy| {
        let numbers = [buddy.radius, buddy.limit];
        line("buddy", &[buddy.on]) + &line("buddy_radius,buddy_limit", &numbers)
    });
    [
        line("nx,ny", &[call.nx, call.ny]),
        line("first_guess", &call.first_guess),
        line("x", &call.x),
        line("y", &call.y),
        line("value", &call.value),
        line("observed", &call.observed),
        line("from", &call.from),
        line("until", &call.until),
        winds.collect(),
        line("scans", &[call.scans]),
        line("radius", &call.radius),
        line("limit", &call.limit),
        line("smooth", &[call.smooth]),
        line("mode", &[call.mode]),
        call.rule.map(|rule| line("rule", &[rule])).unwrap_or_default(),
        buddy.collect(),
        line("time,age", &[call.time, call.age]),
        line(
            "grid_len,support_len,verdict_len",
            &[call.grid_len, call.support_len, call.verdict_len],
        ),
    ]
    .concat()
}

/// A text, whatever its bytes, as a shell line that hands it to the program.
pub fn printf_form(text: &[u8]) -> String {
    let mut quoted = String::new();
    for byte in text {
        match byte {
            b'\n' => quoted += "\\n",
            b'%' => quoted += "%%",
            b'\'' | b'\\' | 0..=31 | 127..=255 => quoted += &format!("\\{byte:03o}"),
            _ => quoted.push(char::from(*byte)),
        }
    }
    format!("printf -- '{quoted}' | second text\n")
}
