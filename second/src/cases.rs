//! Five kinds of comparison: analysis, window, reading, summary, text. Two more,
//! windows and smoothing, are in `screen_case` and `field_case`.

use crate::buddy_sorts;
use crate::call::{Analysis, Call, Query, Refusal, Window};
use crate::compare::{read, Answer, Case, Results, Subject};
use crate::generate;
use crate::generate_query;
use crate::generate_text;
use crate::generate_window;
use crate::harm;
use crate::impossible::{
    late_rejection, moved_by_check, moved_by_rule, moved_by_wind, wrong_weight,
};
use crate::patterned::{Patterned, BYTE_PATTERN, GRID_PATTERN};
use crate::post_sorts;
use crate::query_sorts;
use crate::reading::Reading;
use crate::rule_sorts;
use crate::scheme::analyse;
use crate::shrink;
use crate::smoothing_sorts;
use crate::sorts::{self, Sort};
use crate::summary::{summarise, Summary};
use crate::tally::{Floor, Tally};
use crate::text;
use crate::text_sorts;
use crate::weight_sorts;
use crate::wind_sorts;
use crate::window::{pick, whole};
use crate::write::{listing, printf_form, rerun_form};

const VERDICTS: [u32; 18] = [0, 1, 2, 3, 4, 5, 11, 12, 13, 14, 15, 16, 21, 22, 23, 24, 25, 26];

/// The floors of the kinds that run the scheme.
pub fn scheme_floors(accepted: u64, big: u64, refusals: &[u32]) -> Vec<Floor> {
    let mut floors = vec![Floor::accepted_share(accepted), Floor::times("big", 0, big)];
    floors.extend(refusals.iter().map(|n| Floor::times("refusal", *n, 200)));
    floors.extend([6, 7, 8].map(|n| Floor::times("refusal with a place", n, 200)));
    floors.extend(VERDICTS.map(|n| Floor::times("verdict", n, 200)));
    floors
}

/// The floors of the kinds that only C calls have.
pub fn length_floors() -> Vec<Floor> {
    let mut floors = [0, 1, 3, 4, 5].map(|n| Floor::times("empty slice", n, 50)).to_vec();
    floors.extend([1, 3, 4].map(|n| Floor::times("length off by one", n, 100)));
    floors.extend([1, 3, 4].map(|n| Floor::times("length off by more", n, 100)));
    floors.extend([1, 2, 3].map(|n| Floor::times("unread plan entry", n, 50)));
    floors
}

pub fn count_scheme(outcome: Result<(&Call, &Analysis), &Refusal>, tally: &mut Tally) {
    match outcome {
        Ok((call, analysis)) => {
            tally.add_analysis(call, analysis);
            tally.add_sorts(&post_sorts::of_accepted(call, &analysis.verdict));
            tally.add_sorts(&weight_sorts::of_accepted(call, analysis));
            tally.add_sorts(&smoothing_sorts::of_accepted(call));
        }
        Err(refusal) => tally.add_refusal(refusal),
    }
}

/// What only C calls have: winds, a mode, any rule, and a check that is off or bad, with
/// the windows that are asked for.
pub fn count_winds_and_rules(
    call: &Call,
    windows: &[Window],
    outcome: &Result<Analysis, Refusal>,
    tally: &mut Tally,
) {
    tally.add_sorts(&match outcome {
        Ok(analysis) => wind_sorts::of_accepted(call, analysis, windows),
        Err(refusal) => wind_sorts::of_refused(call, refusal),
    });
    tally.add_sorts(&match outcome {
        Ok(analysis) => rule_sorts::of_accepted(call, analysis, windows),
        Err(refusal) => rule_sorts::of_refused(call, refusal),
    });
    tally.add_sorts(&match outcome {
        Ok(analysis) => buddy_sorts::of_accepted(call, analysis, windows),
        Err(refusal) => buddy_sorts::of_refused(call, refusal),
    });
}

/// The floors of what windows and screens have of these.
pub fn call_floors() -> Vec<Floor> {
    let rules = [rule_sorts::window_floors(), buddy_sorts::window_floors()].concat();
    [wind_sorts::window_floors(), rules].concat()
}

/// What is wrong with an accepted answer, whatever it is compared with.
pub fn wrong_by_itself(call: &Call, expected: &Result<Analysis, Refusal>) -> Option<String> {
    let analysis = expected.as_ref().ok()?;
    late_rejection(call, &analysis.verdict)
        .or_else(|| moved_by_wind(call, analysis))
        .or_else(|| moved_by_rule(call, analysis))
        .or_else(|| moved_by_check(call, analysis))
        .or_else(|| wrong_weight(call, &analysis.verdict))
}

/// The refusal number of an outcome, 0 where it is accepted.
pub fn number_of(outcome: &Result<Analysis, Refusal>) -> u32 {
    outcome.as_ref().err().map_or(0, |refusal| refusal.number)
}

pub fn unlike_code<T>(code: Answer<u32>, outcome: &Result<T, Refusal>) -> Option<String> {
    let code = match code {
        Ok(code) => code,
        Err(wrong) => return Some(wrong),
    };
    let (number, place) = match outcome {
        Ok(_) => (0, 0),
        Err(refusal) => (refusal.number, refusal.place),
    };
    let (given, at) = (code / 65_536, code % 65_536);
    ((given, at) != (number, place))
        .then(|| format!("refusal {given} at {at}, not refusal {number} at {place}"))
}

#[derive(Clone, Debug, PartialEq, Eq)]
pub struct AnalysisCase(pub Call);

impl Case for AnalysisCase {
    const KIND: &'static str = "analysis";
    type Expected = Result<Analysis, Refusal>;

    fn generate(seed: u64, index: u64) -> Self {
        AnalysisCase(generate::analysis(seed, index))
    }

    fn expected(&self) -> Self::Expected {
        analyse(&self.0)
    }

    fn count(&self, expected: &Self::Expected, tally: &mut Tally) {
        let call = &self.0;
        count_scheme(expected.as_ref().map(|analysis| (call, analysis)), tally);
        count_winds_and_rules(call, &[], expected, tally);
        let (points, rows) = (call.first_guess.len(), call.x.len());
        let results = [call.grid_len, call.support_len, call.verdict_len];
        tally.add_lengths(call, &results, &[points, points, rows], number_of(expected));
    }

    fn difference(&self, expected: &Self::Expected, subject: &dyn Subject) -> Option<String> {
        let call = &self.0;
        let mut grid = Patterned::new("grid", call.grid_len, GRID_PATTERN);
        let mut support = Patterned::new("support", call.support_len, BYTE_PATTERN);
        let mut verdict = Patterned::new("verdict", call.verdict_len, BYTE_PATTERN);
        let results =
            Results { grid: grid.lent(), support: support.lent(), verdict: verdict.lent() };
        let code = subject.analyse(call, results);
        let answer = expected.as_ref().ok();
        unlike_code(code, expected)
            .or_else(|| verdict.difference(answer.map(|a| &a.verdict[..])))
            .or_else(|| support.difference(answer.map(|a| &a.support[..])))
            .or_else(|| grid.difference(answer.map(|a| &a.grid[..])))
    }

    fn impossible(&self, expected: &Self::Expected) -> Option<String> {
        wrong_by_itself(&self.0, expected)
    }

    fn smaller(&self) -> Box<dyn Iterator<Item = Self> + '_> {
        Box::new(shrink::smaller_calls(&self.0).map(AnalysisCase))
    }

    fn rerun_form(&self) -> String {
        rerun_form(&self.0)
    }

    fn floors() -> Vec<Floor> {
        let scheme = scheme_floors(10_000, 300, &[1, 3, 4, 5, 6, 7, 8]);
        let posts = post_sorts::call_floors();
        let others = [weight_sorts::floors(), smoothing_sorts::floors()].concat();
        let winds = [wind_sorts::floors(), rule_sorts::floors(), buddy_sorts::floors()].concat();
        [scheme, length_floors(), posts, others, winds].concat()
    }
}

#[derive(Clone, Debug, PartialEq, Eq)]
pub struct WindowCase {
    pub call: Call,
    pub window: Window,
}

impl Case for WindowCase {
    const KIND: &'static str = "window";
    /// The whole grid's analysis, so that its verdicts can be counted.
    type Expected = Result<Analysis, Refusal>;

    fn generate(seed: u64, index: u64) -> Self {
        let (call, window) = generate_window::window(seed, index);
        WindowCase { call, window }
    }

    fn expected(&self) -> Self::Expected {
        whole(&self.call, &self.window)
    }

    fn count(&self, expected: &Self::Expected, tally: &mut Tally) {
        let (call, window) = (&self.call, &self.window);
        count_scheme(expected.as_ref().map(|analysis| (call, analysis)), tally);
        count_winds_and_rules(call, &[*window], expected, tally);
        let number = number_of(expected);
        // After refusals 1 and 2 the ends are in order, and nothing wraps.
        let asked = [window.wrapped_area() as usize; 2];
        tally.add_lengths(call, &[call.grid_len, call.support_len], &asked, number);
        match (expected, number) {
            (Ok(analysis), _) => {
                tally.add_sorts(&sorts::of_accepted(call, window, &analysis.verdict));
                tally.add_sorts(&post_sorts::of_window(call, window, &analysis.verdict));
                tally.add_sorts(&weight_sorts::of_window(call, window, &analysis.verdict));
                tally.add_sorts(&smoothing_sorts::of_window(call, window));
            }
            (_, 2) => tally.add_sorts(&sorts::of_bad(call, window)),
            _ => (),
        }
    }

    fn difference(&self, expected: &Self::Expected, subject: &dyn Subject) -> Option<String> {
        let (call, window) = (&self.call, &self.window);
        let mut grid = Patterned::new("grid", call.grid_len, GRID_PATTERN);
        let mut support = Patterned::new("support", call.support_len, BYTE_PATTERN);
        let results = Results { grid: grid.lent(), support: support.lent(), verdict: &mut [] };
        let code = subject.window(call, window, results);
        let answer = expected.as_ref().ok();
        let answer = answer.map(|analysis| pick(call.shape(), analysis, window));
        unlike_code(code, expected)
            .or_else(|| support.difference(answer.as_ref().map(|a| &a.support[..])))
            .or_else(|| grid.difference(answer.as_ref().map(|a| &a.grid[..])))
    }

    fn impossible(&self, expected: &Self::Expected) -> Option<String> {
        wrong_by_itself(&self.call, expected)
    }

    fn smaller(&self) -> Box<dyn Iterator<Item = Self> + '_> {
        let cases = shrink::smaller_windows(&self.call, &self.window);
        Box::new(cases.map(|(call, window)| WindowCase { call, window }))
    }

    fn rerun_form(&self) -> String {
        let Window { left, right, top, bottom } = self.window;
        let ends = text::line("left,right,top,bottom", &[left, right, top, bottom]);
        ends + &listing(&self.call)
    }

    fn floors() -> Vec<Floor> {
        let scheme = scheme_floors(10_000, 300, &[1, 2, 3, 4, 5, 6, 7, 8]);
        let empty = vec![Floor::times("empty slice", 2, 50)];
        let posts = [post_sorts::call_floors(), post_sorts::window_floors(50)].concat();
        let others = [weight_sorts::window_floors(), smoothing_sorts::window_floors(8)].concat();
        let winds = call_floors();
        [scheme, length_floors(), empty, sorts::floors(), posts, others, winds].concat()
    }
}

fn query_form(query: &Query) -> String {
    [
        text::line("nx,ny", &[query.nx, query.ny]),
        text::line("field", &query.field),
        text::line("support", &query.support),
        text::line("x,y", &[query.x, query.y]),
    ]
    .concat()
}

#[derive(Clone, Debug, PartialEq, Eq)]
pub struct ReadingCase(pub Query);

impl Case for ReadingCase {
    const KIND: &'static str = "reading";
    type Expected = Reading;

    fn generate(seed: u64, index: u64) -> Self {
        ReadingCase(generate_query::reading(seed, index))
    }

    fn expected(&self) -> Reading {
        read(&self.0)
    }

    fn count(&self, expected: &Reading, tally: &mut Tally) {
        tally.add("kind", expected.kind());
        tally.add_sorts(&query_sorts::of_reading(&self.0, expected));
    }

    fn difference(&self, expected: &Reading, subject: &dyn Subject) -> Option<String> {
        let (kind, value) = match (subject.reading_kind(&self.0), subject.reading_value(&self.0)) {
            (Ok(kind), Ok(value)) => (kind, value),
            (Err(wrong), _) | (_, Err(wrong)) => return Some(wrong),
        };
        let same = kind == expected.kind() && value.to_bits() == expected.value().to_bits();
        (!same).then(|| format!("kind {kind} with {value:?}, not {expected:?}"))
    }

    fn smaller(&self) -> Box<dyn Iterator<Item = Self> + '_> {
        Box::new(shrink::smaller_queries(&self.0).map(ReadingCase))
    }

    fn rerun_form(&self) -> String {
        query_form(&self.0)
    }

    fn floors() -> Vec<Floor> {
        let kinds = [0, 1, 2, 3].map(|n| Floor::times("kind", n, 1_000)).to_vec();
        [kinds, query_sorts::reading_floors()].concat()
    }
}

#[derive(Clone, Debug, PartialEq, Eq)]
pub struct SummaryCase(pub Query);

impl Case for SummaryCase {
    const KIND: &'static str = "summary";
    type Expected = Summary;

    fn generate(seed: u64, index: u64) -> Self {
        SummaryCase(generate_query::summary(seed, index))
    }

    fn expected(&self) -> Summary {
        summarise(self.0.nx, self.0.ny, &self.0.field)
    }

    fn count(&self, expected: &Summary, tally: &mut Tally) {
        tally.add("refusal", expected.refusal);
        tally.add_sorts(&query_sorts::of_summary(&self.0, expected.refusal != 0));
    }

    fn difference(&self, expected: &Summary, subject: &dyn Subject) -> Option<String> {
        let given = match subject.summary(&self.0) {
            Ok(given) => given,
            Err(wrong) => return Some(wrong),
        };
        let bits = |s: &Summary| [s.lowest, s.highest, s.span].map(f64::to_bits);
        let same = (given.refusal, given.place) == (expected.refusal, expected.place)
            && bits(&given) == bits(expected);
        (!same).then(|| format!("{given:?}, not {expected:?}"))
    }

    fn smaller(&self) -> Box<dyn Iterator<Item = Self> + '_> {
        Box::new(shrink::smaller_queries(&self.0).map(SummaryCase))
    }

    fn rerun_form(&self) -> String {
        query_form(&self.0)
    }

    fn floors() -> Vec<Floor> {
        query_sorts::summary_floors()
    }
}

#[derive(Clone, Debug, PartialEq, Eq)]
pub struct TextCase {
    pub text: Vec<u8>,
    /// What was done to it in turn, and what came of that near a given text; a smaller
    /// text is counted as nothing.
    pub sorts: Vec<Sort>,
}

impl Case for TextCase {
    const KIND: &'static str = "text";
    type Expected = Result<(Call, Analysis), Refusal>;

    fn generate(seed: u64, index: u64) -> Self {
        let (text, harm) = generate_text::text(seed, index);
        TextCase { text, sorts: harm.into_iter().collect() }
    }

    fn expected(&self) -> Self::Expected {
        text::decide(&self.text)
    }

    fn count(&self, expected: &Self::Expected, tally: &mut Tally) {
        count_scheme(expected.as_ref().map(|(call, analysis)| (call, analysis)), tally);
        tally.add_sorts(&text_sorts::of_text(&self.text, expected.is_ok()));
        tally.add_sorts(&match expected {
            Ok((call, analysis)) => rule_sorts::of_accepted(call, analysis, &[]),
            Err(refusal) => rule_sorts::of_text(&self.text, refusal),
        });
        tally.add_sorts(&match expected {
            Ok((call, analysis)) => buddy_sorts::of_accepted(call, analysis, &[]),
            Err(refusal) => buddy_sorts::of_text(&self.text, refusal),
        });
        tally.add_sorts(&self.sorts);
    }

    fn difference(&self, expected: &Self::Expected, subject: &dyn Subject) -> Option<String> {
        let given = match subject.text(&self.text) {
            Ok(given) => given,
            Err(wrong) => return Some(wrong),
        };
        let asked = text::print(expected);
        let lines = |bytes: &[u8]| -> Vec<String> {
            let lines = bytes.split_inclusive(|byte| *byte == b'\n');
            lines.map(|line| line.escape_ascii().to_string()).collect()
        };
        let (given, asked) = (lines(&given), lines(&asked));
        let most = given.len().max(asked.len());
        let at = (0..most).find(|at| given.get(*at) != asked.get(*at))?;
        let show = |lines: &[String]| lines.get(at).map_or("absent".to_string(), String::clone);
        let (given, asked) = (show(&given), show(&asked));
        Some(format!("answer line {} is {given}, not {asked}", at + 1))
    }

    fn impossible(&self, expected: &Self::Expected) -> Option<String> {
        let (call, analysis) = expected.as_ref().ok()?;
        late_rejection(call, &analysis.verdict)
            .or_else(|| moved_by_rule(call, analysis))
            .or_else(|| moved_by_check(call, analysis))
    }

    fn smaller(&self) -> Box<dyn Iterator<Item = Self> + '_> {
        Box::new(shrink::smaller_texts(&self.text).map(|text| TextCase { text, sorts: Vec::new() }))
    }

    fn rerun_form(&self) -> String {
        printf_form(&self.text)
    }

    fn plain(&self) -> Vec<u8> {
        self.text.clone()
    }

    fn floors() -> Vec<Floor> {
        let scheme = scheme_floors(10_000, 300, &[6, 7, 8, 9, 10]);
        let stations = [post_sorts::text_floors(), weight_sorts::floors()].concat();
        let rules = [rule_sorts::text_floors(), buddy_sorts::text_floors()].concat();
        let others = [smoothing_sorts::floors(), rules].concat();
        [scheme, text_sorts::floors(), harm::floors(), stations, others].concat()
    }
}
