//! One more kind of comparison: windows, all those of a screen in one call.

use crate::call::{Analysis, Call, Refusal, Screen};
use crate::cases::{
    call_floors, count_scheme, count_winds_and_rules, length_floors, number_of, scheme_floors,
    unlike_code, wrong_by_itself,
};
use crate::compare::{Case, Results, Subject};
use crate::generate_screen;
use crate::patterned::{Patterned, BYTE_PATTERN, GRID_PATTERN};
use crate::post_sorts;
use crate::screen::{one_after_the_other, points, whole};
use crate::screen_sorts;
use crate::shrink_screen;
use crate::smoothing_sorts;
use crate::tally::{Floor, Tally};
use crate::text;
use crate::weight_sorts;
use crate::write::listing;

#[derive(Clone, Debug, PartialEq, Eq)]
pub struct ScreenCase {
    pub call: Call,
    pub screen: Screen,
}

impl Case for ScreenCase {
    const KIND: &'static str = "windows";
    /// The whole grid's analysis, so that its verdicts can be counted.
    type Expected = Result<Analysis, Refusal>;

    fn generate(seed: u64, index: u64) -> Self {
        let (call, screen) = generate_screen::screen(seed, index);
        ScreenCase { call, screen }
    }

    fn expected(&self) -> Self::Expected {
        whole(&self.call, &self.screen)
    }

    fn count(&self, expected: &Self::Expected, tally: &mut Tally) {
        let (call, screen) = (&self.call, &self.screen);
        count_scheme(expected.as_ref().map(|analysis| (call, analysis)), tally);
        count_winds_and_rules(call, &screen.windows(), expected, tally);
        let number = number_of(expected);
        // Only after refusals 1 and 2 are the windows good.
        let asked = if [1, 2].contains(&number) { 0 } else { points(&screen.windows()) };
        tally.add_lengths(call, &[call.grid_len, call.support_len], &[asked; 2], number);
        tally.add_sorts(&match expected {
            Ok(analysis) => screen_sorts::of_accepted(call, screen, analysis),
            Err(refusal) => screen_sorts::of_refused(call, screen, refusal),
        });
    }

    fn difference(&self, expected: &Self::Expected, subject: &dyn Subject) -> Option<String> {
        let (call, screen) = (&self.call, &self.screen);
        let mut grid = Patterned::new("grid", call.grid_len, GRID_PATTERN);
        let mut support = Patterned::new("support", call.support_len, BYTE_PATTERN);
        let results = Results { grid: grid.lent(), support: support.lent(), verdict: &mut [] };
        let code = subject.windows(call, screen, results);
        let answer = expected.as_ref().ok();
        let answer = answer.map(|analysis| one_after_the_other(call, analysis, screen));
        unlike_code(code, expected)
            .or_else(|| support.difference(answer.as_ref().map(|a| &a.support[..])))
            .or_else(|| grid.difference(answer.as_ref().map(|a| &a.grid[..])))
    }

    fn impossible(&self, expected: &Self::Expected) -> Option<String> {
        wrong_by_itself(&self.call, expected)
    }

    fn smaller(&self) -> Box<dyn Iterator<Item = Self> + '_> {
        let cases = shrink_screen::smaller_screens(&self.call, &self.screen);
        Box::new(cases.map(|(call, screen)| ScreenCase { call, screen }))
    }

    fn rerun_form(&self) -> String {
        let names = ["left", "right", "top", "bottom"].into_iter();
        let ends = names.zip(self.screen.columns()).map(|(name, ends)| text::line(name, ends));
        ends.collect::<String>() + &listing(&self.call)
    }

    fn floors() -> Vec<Floor> {
        let scheme = scheme_floors(9_000, 30, &[1, 2, 3, 4, 5, 6, 7, 8]);
        let empty = vec![Floor::times("empty slice", 2, 50)];
        let stations = [post_sorts::screen_floors(), weight_sorts::window_floors()].concat();
        let smoothing = smoothing_sorts::window_floors(120);
        let winds = call_floors();
        let screens = screen_sorts::floors();
        [scheme, length_floors(), empty, screens, winds, stations, smoothing].concat()
    }
}
