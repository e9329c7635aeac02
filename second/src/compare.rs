//! The harness: a subject's calls beside the second program's, over a seed
//! and a count, with a tally and the smallest failing case.

use crate::call::{Call, Field, Query, Refusal, Screen, Window, WindowAnswer};
use crate::reading::{reading, Reading};
use crate::scheme::analyse;
use crate::screen::screen;
use crate::shrink::smallest;
use crate::smoothing::smooth;
use crate::summary::{summarise, Summary};
use crate::tally::{Floor, Tally};
use crate::text;
use crate::window::window;
use std::sync::atomic::{AtomicU64, Ordering};
use std::thread::scope;

/// The result slices that are lent to a subject. A window query and a screen
/// have no verdicts and are lent none.
pub struct Results<'a> {
    pub grid: &'a mut [i32],
    pub support: &'a mut [u8],
    pub verdict: &'a mut [u8],
}

impl Results<'_> {
    fn take(self, answer: &WindowAnswer) {
        self.grid.copy_from_slice(&answer.grid);
        self.support.copy_from_slice(&answer.support);
    }
}

/// What a call gives, or in words what is wrong with it whatever it gives.
pub type Answer<T> = Result<T, String>;

fn not_offered<T>() -> Answer<T> {
    Err("the subject does not offer this call".to_string())
}

/// A program under comparison, behind the interface of the C calls. A run
/// fails if it needs a call that the subject does not offer.
pub trait Subject {
    fn analyse(&self, _call: &Call, _results: Results) -> Answer<u32> {
        not_offered()
    }

    fn window(&self, _call: &Call, _window: &Window, _results: Results) -> Answer<u32> {
        not_offered()
    }

    fn windows(&self, _call: &Call, _screen: &Screen, _results: Results) -> Answer<u32> {
        not_offered()
    }

    fn reading_kind(&self, _query: &Query) -> Answer<u32> {
        not_offered()
    }

    fn reading_value(&self, _query: &Query) -> Answer<f64> {
        not_offered()
    }

    fn summary(&self, _query: &Query) -> Answer<Summary> {
        not_offered()
    }

    fn text(&self, _request: &[u8]) -> Answer<Vec<u8>> {
        not_offered()
    }

    /// Smooths the values in place, or says false and leaves them.
    fn smooth(&self, _nx: u32, _ny: u32, _values: &mut [i32]) -> Answer<bool> {
        not_offered()
    }
}

/// The second program itself, behind the same interface.
pub struct Own;

impl Subject for Own {
    fn analyse(&self, call: &Call, results: Results) -> Answer<u32> {
        Ok(written(analyse(call), |analysis| {
            results.grid.copy_from_slice(&analysis.grid);
            results.support.copy_from_slice(&analysis.support);
            results.verdict.copy_from_slice(&analysis.verdict);
        }))
    }

    fn window(&self, call: &Call, ends: &Window, results: Results) -> Answer<u32> {
        Ok(written(window(call, ends), |answer| results.take(&answer)))
    }

    fn windows(&self, call: &Call, windows: &Screen, results: Results) -> Answer<u32> {
        Ok(written(screen(call, windows), |answer| results.take(&answer)))
    }

    fn reading_kind(&self, query: &Query) -> Answer<u32> {
        Ok(read(query).kind())
    }

    fn reading_value(&self, query: &Query) -> Answer<f64> {
        Ok(read(query).value())
    }

    fn summary(&self, query: &Query) -> Answer<Summary> {
        Ok(summarise(query.nx, query.ny, &query.field))
    }

    fn text(&self, request: &[u8]) -> Answer<Vec<u8>> {
        Ok(text::answer(request))
    }

    fn smooth(&self, nx: u32, ny: u32, values: &mut [i32]) -> Answer<bool> {
        let smoothed = smooth(&Field { nx, ny, values: values.to_vec() });
        Ok(smoothed.map(|smoothed| values.copy_from_slice(&smoothed)).is_some())
    }
}

pub fn read(query: &Query) -> Reading {
    reading(query.nx, query.ny, &query.field, &query.support, query.x, query.y)
}

/// The code of an outcome, after an accepted one has been written.
fn written<T>(outcome: Result<T, Refusal>, write: impl FnOnce(T)) -> u32 {
    match outcome {
        Ok(answer) => {
            write(answer);
            0
        }
        Err(refusal) => refusal.code(),
    }
}

/// One kind of comparison: how its cases are made, answered, counted,
/// compared, made smaller and written down.
pub trait Case: Clone {
    const KIND: &'static str;
    /// What the second program says of a case.
    type Expected;

    fn generate(seed: u64, index: u64) -> Self;
    fn expected(&self) -> Self::Expected;
    fn count(&self, expected: &Self::Expected, tally: &mut Tally);
    fn difference(&self, expected: &Self::Expected, subject: &dyn Subject) -> Option<String>;
    fn smaller(&self) -> Box<dyn Iterator<Item = Self> + '_>;
    fn rerun_form(&self) -> String;
    fn floors() -> Vec<Floor>;

    /// What no answer may hold, found in the second program's own.
    fn impossible(&self, _expected: &Self::Expected) -> Option<String> {
        None
    }

    /// The case as plain bytes, for the `generate` command.
    fn plain(&self) -> Vec<u8> {
        self.rerun_form().into_bytes()
    }

    fn differs(&self, subject: &dyn Subject) -> Option<String> {
        self.found_wrong(&self.expected(), subject)
    }

    /// First the second program's answer by itself, then the subject's beside
    /// it: one that equals it cannot hold what it does not.
    fn found_wrong(&self, expected: &Self::Expected, subject: &dyn Subject) -> Option<String> {
        self.impossible(expected).or_else(|| self.difference(expected, subject))
    }
}

/// A case that the subject answers otherwise, made as small as can be.
pub struct Failure<C> {
    pub index: u64,
    pub difference: String,
    pub smallest: C,
}

pub struct Run<C> {
    pub tally: Tally,
    pub failure: Option<Failure<C>>,
}

/// A case that differs, before it is made small.
struct Found<C> {
    index: u64,
    difference: String,
    case: C,
}

/// Counts a case and compares it.
fn seen<C: Case>(
    subject: &dyn Subject,
    index: u64,
    case: C,
    tally: &mut Tally,
) -> Option<Found<C>> {
    let expected = case.expected();
    tally.count += 1;
    case.count(&expected, tally);
    let difference = case.found_wrong(&expected, subject)?;
    Some(Found { index, difference, case })
}

fn made_small<C: Case>(subject: &dyn Subject, found: Found<C>) -> Failure<C> {
    let Found { index, difference, case } = found;
    let smallest = smallest(case, &|case: &C| case.differs(subject).is_some());
    let difference = smallest.differs(subject).unwrap_or(difference);
    Failure { index, difference, smallest }
}

/// Compares the cases 0..count of a seed, up to the first that differs.
pub fn run<C: Case>(subject: &dyn Subject, seed: u64, count: u64) -> Run<C> {
    run_over(subject, (0..count).map(|index| C::generate(seed, index)))
}

/// The same over any cases.
pub fn run_over<C: Case>(subject: &dyn Subject, cases: impl IntoIterator<Item = C>) -> Run<C> {
    let mut tally = Tally::default();
    let mut cases = (0..).zip(cases);
    let found = cases.find_map(|(index, case)| seen(subject, index, case, &mut tally));
    Run { tally, failure: found.map(|found| made_small(subject, found)) }
}

/// A subject that answers two calls at a time.
pub type Shared<'a> = &'a (dyn Subject + Sync);

/// The same over cases that are made by index, two at a time. The first that differs is
/// found here too: every case before it has been begun, and is finished.
pub fn run_two_at_a_time<C: Case + Send>(
    subject: Shared,
    make: &(dyn Fn(u64) -> C + Sync),
    count: u64,
) -> Run<C> {
    let next = AtomicU64::new(0);
    let work = || {
        let mut tally = Tally::default();
        loop {
            let index = next.fetch_add(1, Ordering::Relaxed);
            if index >= count {
                return (tally, None);
            }
            let found = seen(subject, index, make(index), &mut tally);
            if found.is_some() {
                next.store(count, Ordering::Relaxed);
                return (tally, found);
            }
        }
    };
    let ((mut tally, one), (others, other)) = scope(|scope| {
        let beside = scope.spawn(work);
        let here = work();
        (here, beside.join().expect("the other thread compares to its end"))
    });
    tally.add_all(&others);
    let first = one.into_iter().chain(other).min_by_key(|found| found.index);
    Run { tally, failure: first.map(|found| made_small(subject, found)) }
}
