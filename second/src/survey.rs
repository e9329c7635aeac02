//! The survey: all kinds of cases over one seed and count, tallies shown and
//! floors held.

use crate::buddy_sorts;
use crate::cases::{AnalysisCase, ReadingCase, SummaryCase, TextCase, WindowCase};
use crate::compare::{run, run_over, run_two_at_a_time, Case, Run, Shared, Subject};
use crate::field_case::FieldCase;
use crate::near::Near;
use crate::post_sorts::real_floors;
use crate::real::{stations, Cases};
use crate::rule_sorts;
use crate::screen_case::ScreenCase;
use crate::screen_sorts;
use crate::tally::Floor;
use crate::wind_sorts;
use std::io::{self, Write};

/// Runs one kind and prints its tally. The error says what was found wrong.
pub fn survey_kind<C: Case>(
    subject: &dyn Subject,
    seed: u64,
    count: u64,
    out: &mut dyn Write,
) -> Result<(), String> {
    report(run::<C>(subject, seed, count), &kind_of_seed::<C>(seed), &C::floors(), out)
}

fn kind_of_seed<C: Case>(seed: u64) -> Origin {
    Origin { kind: C::KIND, of: format!("of seed {seed}") }
}

/// Where the cases of a run come from, for what is said of them.
struct Origin {
    kind: &'static str,
    of: String,
}

fn report<C: Case>(
    outcome: Run<C>,
    Origin { kind, of }: &Origin,
    floors: &[Floor],
    out: &mut dyn Write,
) -> Result<(), String> {
    if let Some(failure) = outcome.failure {
        let (index, difference) = (failure.index, failure.difference);
        let smallest = failure.smallest.rerun_form();
        return Err(format!(
            "{kind} case {index} {of}: {difference}\nsmallest failing request:\n{smallest}"
        ));
    }
    let tally = &outcome.tally;
    writeln!(out, "{kind}, {} cases", tally.count).map_err(unprinted)?;
    write!(out, "{tally}").map_err(unprinted)?;
    match tally.missed(floors) {
        Some(missed) => Err(format!("{kind} {of}, {missed}")),
        None => Ok(()),
    }
}

fn unprinted(error: io::Error) -> String {
    format!("the tallies could not be printed: {error}")
}

/// Runs one kind alone, with its seed and count above it.
pub fn compare_kind<C: Case>(
    subject: &dyn Subject,
    seed: u64,
    count: u64,
    out: &mut dyn Write,
) -> Result<(), String> {
    writeln!(out, "seed {seed}, count {count}").map_err(unprinted)?;
    survey_kind::<C>(subject, seed, count, out)
}

/// Runs the generated texts through a program, two at a time.
pub fn compare_texts(
    program: Shared,
    seed: u64,
    count: u64,
    out: &mut dyn Write,
) -> Result<(), String> {
    writeln!(out, "seed {seed}, count {count}").map_err(unprinted)?;
    let outcome = run_two_at_a_time(program, &|index| TextCase::generate(seed, index), count);
    report(outcome, &kind_of_seed::<TextCase>(seed), &TextCase::floors(), out)
}

/// Runs the texts that are one byte away from a given one through a program,
/// two at a time: all deletions, and of the others every stride-th.
pub fn compare_near(program: Shared, stride: u64, out: &mut dyn Write) -> Result<(), String> {
    let near = Near::new(stride);
    writeln!(out, "stride {stride}, {}", near.counts()).map_err(unprinted)?;
    let outcome = run_two_at_a_time(program, &|index| near.case(index), near.count());
    let origin = Origin { kind: "near", of: format!("of stride {stride}") };
    report(outcome, &origin, &near.floors(), out)
}

/// Runs calls over the real stations of a data file.
pub fn compare_real(subject: &dyn Subject, data: &str, out: &mut dyn Write) -> Result<(), String> {
    let cases = real_cases(data, out)?;
    let all_but = |refused: usize, cases: usize| {
        let outcomes = vec![fixed("accepted", 0, cases - refused), fixed("refusal", 4, refused)];
        let rules = [rule_sorts::real_floors(), buddy_sorts::real_floors()].concat();
        [outcomes, real_floors(), wind_sorts::real_floors(), rules].concat()
    };
    let floors = all_but(1, cases.analyses.len());
    real_kind("real analysis", subject, cases.analyses, &floors, out)?;
    let floors = all_but(1, cases.windows.len());
    real_kind("real window", subject, cases.windows, &floors, out)?;
    let floors = [all_but(2, cases.screens.len()), screen_sorts::real_floors()].concat();
    real_kind("real windows", subject, cases.screens, &floors, out)?;
    let floors = [0, 2].map(|kind| fixed("kind", kind, 1));
    real_kind("real reading", subject, cases.readings, &floors, out)?;
    let floors = [fixed("refusal", 0, cases.summaries.len())];
    real_kind("real summary", subject, cases.summaries, &floors, out)
}

/// Runs texts over the same stations.
pub fn compare_real_texts(
    program: &dyn Subject,
    data: &str,
    out: &mut dyn Write,
) -> Result<(), String> {
    let texts = real_cases(data, out)?.texts;
    let refused = fixed("refusal with a place", 9, 1);
    let outcomes = vec![fixed("accepted", 0, texts.len() - 1), refused];
    let rules = [rule_sorts::real_text_floors(), buddy_sorts::real_text_floors()].concat();
    let floors = [outcomes, real_floors(), rules].concat();
    real_kind("real text", program, texts, &floors, out)
}

/// The cases, after what is said of their plans.
fn real_cases(data: &str, out: &mut dyn Write) -> Result<Cases, String> {
    let stations = stations(data)?;
    let cases = Cases::new(&stations)?;
    writeln!(out, "{} stations of document 002", stations.len()).map_err(unprinted)?;
    for line in &cases.said {
        writeln!(out, "  {line}").map_err(unprinted)?;
    }
    Ok(cases)
}

fn fixed(name: &'static str, number: u32, least: usize) -> Floor {
    Floor::fixed(name, number, least as u64)
}

fn real_kind<C: Case>(
    kind: &'static str,
    subject: &dyn Subject,
    cases: Vec<C>,
    floors: &[Floor],
    out: &mut dyn Write,
) -> Result<(), String> {
    let origin = Origin { kind, of: "of document 002's stations".to_string() };
    report(run_over(subject, cases), &origin, floors, out)
}

/// So many requests of each kind, and so many single fields.
#[derive(Clone, Copy, Debug)]
pub struct Counts {
    pub requests: u64,
    pub fields: u64,
}

pub fn survey(
    subject: &dyn Subject,
    seed: u64,
    Counts { requests: count, fields }: Counts,
    out: &mut dyn Write,
) -> Result<(), String> {
    compare_kind::<AnalysisCase>(subject, seed, count, out)?;
    survey_kind::<WindowCase>(subject, seed, count, out)?;
    survey_kind::<ScreenCase>(subject, seed, count, out)?;
    survey_kind::<ReadingCase>(subject, seed, count, out)?;
    survey_kind::<SummaryCase>(subject, seed, count, out)?;
    survey_kind::<TextCase>(subject, seed, count, out)?;
    survey_kind::<FieldCase>(subject, seed, fields, out)
}
