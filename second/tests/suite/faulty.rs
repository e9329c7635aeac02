//! Subjects with one planted fault each, to show that the harness sees it.

use crate::faulty_buddies::{self, BuddyFault};
use crate::faulty_lines::{self, LineFault};
use crate::faulty_rules::{self, RuleFault};
use crate::faulty_weights::{self, WeightFault};
use crate::faulty_winds::{self, WindFault};
use crate::windows::{from_part, picked_from};
use second::call::{Analysis, Call, Query, Refusal, Screen, Window, WindowAnswer};
use second::compare::{Answer, Own, Results, Subject};
use second::field::Shape;
use second::refusals::{check_analysis, check_window, Checked};
use second::scan::{correct, difference, judge, smoothed, sums, Accepted};
use second::screen::{check_screen, points};
use second::slips::{smoothed_with, Slip};
use second::summary::Summary;
use second::text;
use second::units::{rounded, BORDER, LISTINGS, MISSING, WEIGHT_SCALE};
use second::verdicts::{before_first_scan, ACCEPTED, OFF_GRID};
use second::window::{cut, pick, reach, rows_on, widened};

#[derive(Clone, Copy, Debug, PartialEq, Eq)]
pub enum Fault {
    HalvesTowardZero,
    Missing32767,
    TakenBack,
    FedBySameScan,
    WritesBeforeRefusal,
    SupportOffByOneBit,
    VerdictOffByOne,
    SmoothsBorder,
    WidenedByLargestOnly,
    NoPosts,
    Border255,
    Border257,
    BorderIsRound,
    FieldForPosts,
    FirstGuessForAll,
    DistanceFromPlace,
    PostsLeaveTheCut,
    CornerPostsLeaveTheCut,
    PostsOfTheWindowOnly,
    Weights(WeightFault),
    Winds(WindFault),
    Rules(RuleFault),
    Buddies(BuddyFault),
    Lines(LineFault),
    Smooths(Slip),
    IdleCornersCount,
    NegativeZero,
    AnyCornerBacks,
    LastEdgeIsOff,
    OneUnitOffIsOn,
    PostsAreRead,
    ReadingRounded,
    SupportUnmeasured,
    RefusedSummaryFilled,
    LastPointLeftOut,
    SpanWraps,
    CarriageReturns,
}

pub struct Faulty(pub Fault);

impl Faulty {
    /// A test of the call, and the call as somebody goes on with it who has it
    /// pass.
    fn passed(&self, call: &Call, test: &dyn Fn(&Call) -> Checked) -> Result<Call, Refusal> {
        match self.0 {
            Fault::Winds(fault) => {
                faulty_winds::check(call, fault, test).map(|()| faulty_winds::tamed(call))
            }
            Fault::Rules(fault) => {
                faulty_rules::check(call, fault, test).map(|()| faulty_rules::tamed(call, fault))
            }
            Fault::Buddies(fault) => faulty_buddies::check(call, fault, test)
                .map(|()| faulty_buddies::tamed(call, fault)),
            _ => test(call).map(|()| call.clone()),
        }
    }
}

impl Subject for Faulty {
    fn analyse(&self, call: &Call, results: Results) -> Answer<u32> {
        if self.0 == Fault::WritesBeforeRefusal {
            results.grid.iter_mut().for_each(|value| *value = 0);
        }
        let call = match self.passed(call, &check_analysis) {
            Ok(call) => call,
            Err(refusal) => return Ok(refusal.code()),
        };
        let analysis = faulty_run(&call, self.0);
        results.grid.copy_from_slice(&analysis.grid);
        results.support.copy_from_slice(&analysis.support);
        results.verdict.copy_from_slice(&analysis.verdict);
        Ok(0)
    }

    fn window(&self, call: &Call, ends: &Window, results: Results) -> Answer<u32> {
        let call = match self.passed(call, &|call| check_window(call, ends)) {
            Ok(call) => call,
            Err(refusal) => return Ok(refusal.code()),
        };
        let answer = faulty_window(&call, ends, self.0);
        results.grid.copy_from_slice(&answer.grid);
        results.support.copy_from_slice(&answer.support);
        Ok(0)
    }

    /// By cuts, unless these have more points together than the grid.
    fn windows(&self, call: &Call, screen: &Screen, results: Results) -> Answer<u32> {
        let call = match self.passed(call, &|call| check_screen(call, screen)) {
            Ok(call) => call,
            Err(refusal) => return Ok(refusal.code()),
        };
        let answer = faulty_screen(&call, &screen.windows(), self.0);
        results.grid.copy_from_slice(&answer.grid);
        results.support.copy_from_slice(&answer.support);
        Ok(0)
    }

    fn reading_kind(&self, query: &Query) -> Answer<u32> {
        let query = &misread(query, self.0);
        let kind = Own.reading_kind(query)?;
        if ![1, 2].contains(&kind) {
            return Ok(kind);
        }
        let corners = shape(query).corners(query.x, query.y);
        let bare = |corner: &(usize, i64)| query.support[corner.0] == 0;
        Ok(match self.0 {
            Fault::IdleCornersCount if corners.iter().any(bare) => 1,
            Fault::AnyCornerBacks if corners.iter().any(|c| c.1 > 0 && !bare(c)) => 2,
            Fault::LastEdgeIsOff if i64::from(query.x) == shape(query).far_corner().0 => 0,
            _ => kind,
        })
    }

    fn reading_value(&self, query: &Query) -> Answer<f64> {
        let value = Own.reading_value(&misread(query, self.0))?;
        Ok(match self.0 {
            Fault::NegativeZero if value == 0.0 => -0.0,
            Fault::ReadingRounded => (value * 64.0).round() / 64.0,
            _ => value,
        })
    }

    fn summary(&self, query: &Query) -> Answer<Summary> {
        let mut summary = Own.summary(query)?;
        if self.0 == Fault::RefusedSummaryFilled && summary.refusal != 0 {
            summary.span = 1.0;
        }
        if self.0 == Fault::SpanWraps {
            let span = (summary.span * 64.0) as i64 as i32;
            summary.span = f64::from(span) / 64.0;
        }
        if self.0 == Fault::LastPointLeftOut && summary.refusal == 0 {
            let mut query = query.clone();
            let last = query.field.len() - 1;
            query.field[last] = query.field[0];
            return Own.summary(&query);
        }
        Ok(summary)
    }

    fn text(&self, request: &[u8]) -> Answer<Vec<u8>> {
        if self.0 == Fault::CarriageReturns {
            let kept = request.iter().copied().filter(|byte| *byte != b'\r');
            return Own.text(&kept.collect::<Vec<u8>>());
        }
        if let Fault::Rules(fault) = self.0 {
            return Ok(faulty_rules::text(request, fault));
        }
        if let Fault::Lines(fault) = self.0 {
            return Ok(faulty_lines::text(request, fault));
        }
        if let Fault::Buddies(fault) = self.0 {
            let passed = text::parse(request).and_then(|call| self.passed(&call, &check_analysis));
            let answer = passed.map(|call| {
                let analysis = faulty_buddies::run(&call, fault);
                (call, analysis)
            });
            return Ok(text::print(&answer));
        }
        let answer = text::decide(request).map(|(call, _)| {
            let analysis = faulty_run(&call, self.0);
            (call, analysis)
        });
        Ok(text::print(&answer))
    }
}

fn shape(query: &Query) -> Shape {
    Shape { nx: query.nx as usize, ny: query.ny as usize }
}

/// Whether a post may stand at the place of a query, if it is not refused.
fn post_may_stand_at(query: &Query) -> bool {
    Own.reading_kind(query) == Ok(0) && shape(query).holds_within(query.x, query.y, BORDER)
}

/// The query as somebody might take it who tests too little of it.
fn misread(query: &Query, fault: Fault) -> Query {
    let mut query = query.clone();
    match fault {
        Fault::OneUnitOffIsOn if query.x == -1 => query.x = 0,
        Fault::OneUnitOffIsOn if i64::from(query.y) == shape(&query).far_corner().1 + 1 => {
            query.y -= 1;
        }
        Fault::PostsAreRead if post_may_stand_at(&query) => {
            (query.x, query.y) = shape(&query).nearest(query.x, query.y);
        }
        Fault::SupportUnmeasured => query.support.resize(query.field.len(), 0),
        _ => (),
    }
    query
}

/// The window's numbers, out of a cut where the fault is one of cuts.
fn faulty_window(call: &Call, ends: &Window, fault: Fault) -> WindowAnswer {
    let part = widened(call, ends, reach(call));
    let shape = call.shape();
    let is_post = |row: usize| !shape.holds(call.x[row], call.y[row]);
    match fault {
        Fault::WidenedByLargestOnly => {
            let largest = call.radius[0].unsigned_abs().div_ceil(64);
            from_part(call, ends, &widened(call, ends, largest))
        }
        Fault::Winds(WindFault::CutWithTheFirstWinds) => {
            let cut = faulty_winds::with_the_first_winds(call, cut(call, &part));
            picked_from(&cut, ends, &part)
        }
        Fault::Rules(RuleFault::CutUnderTheDefault) => {
            let cut = Call { rule: None, ..cut(call, &part) };
            picked_from(&cut, ends, &part)
        }
        Fault::Buddies(fault) => {
            let by_cut = faulty_buddies::window(call, ends, fault);
            by_cut.unwrap_or_else(|| pick(shape, &faulty_buddies::run(call, fault), ends))
        }
        Fault::PostsLeaveTheCut => from_part(&moved_away(call, is_post), ends, &part),
        Fault::CornerPostsLeaveTheCut => {
            let (last_x, last_y) = shape.far_corner();
            let off = |position: i32, last: i64| !(0..=last).contains(&i64::from(position));
            let dropped = |row: usize| off(call.x[row], last_x) && off(call.y[row], last_y);
            from_part(&moved_away(call, dropped), ends, &part)
        }
        Fault::PostsOfTheWindowOnly => {
            let kept = rows_on(call, ends);
            let dropped = |row: usize| is_post(row) && !kept.contains(&row);
            from_part(&moved_away(call, dropped), ends, &part)
        }
        _ => pick(shape, &faulty_run(call, fault), ends),
    }
}

fn faulty_screen(call: &Call, windows: &[Window], fault: Fault) -> WindowAnswer {
    let cuts: Vec<Window> = windows.iter().map(|w| widened(call, w, reach(call))).collect();
    let by_cuts = points(&cuts) <= call.first_guess.len();
    let whole = faulty_run(call, fault);
    let mut all = WindowAnswer { grid: Vec::new(), support: Vec::new() };
    for window in windows {
        let single = match by_cuts {
            true => faulty_window(call, window, fault),
            false => pick(call.shape(), &whole, window),
        };
        all.grid.extend(single.grid);
        all.support.extend(single.support);
    }
    all
}

/// The call with some rows where no station takes part.
pub fn moved_away(call: &Call, moved: impl Fn(usize) -> bool) -> Call {
    let mut call = call.clone();
    for row in (0..call.x.len()).filter(|row| moved(*row)) {
        call.x[row] = 1_000_000;
    }
    call
}

/// Verdicts before the first scan, with another border where that is at fault.
fn faulty_verdicts(call: &Call, fault: Fault) -> Vec<u8> {
    let border = match fault {
        Fault::NoPosts => 0,
        Fault::Border255 => 255,
        Fault::Border257 => 257,
        _ => BORDER,
    };
    let mut verdict = before_first_scan(call, border);
    let judged = verdict.iter_mut().enumerate().filter(|(_, verdict)| **verdict == ACCEPTED);
    for (row, verdict) in judged.filter(|_| fault == Fault::BorderIsRound) {
        let (x, y) = (call.x[row], call.y[row]);
        let place = call.shape().nearest(x, y);
        if i64::from(x - place.0).pow(2) + i64::from(y - place.1).pow(2) > BORDER * BORDER {
            *verdict = OFF_GRID;
        }
    }
    verdict
}

/// The stations that pass, their differences taken otherwise, or their places.
fn faulty_judge(
    call: &Call,
    grid: &[i32],
    scan: usize,
    verdict: &mut [u8],
    fault: Fault,
) -> Vec<Accepted> {
    match fault {
        Fault::FieldForPosts => {
            let call = Call { first_guess: grid.to_vec(), ..call.clone() };
            judge(&call, grid, scan, verdict)
        }
        Fault::FirstGuessForAll => judge(call, &call.first_guess, scan, verdict),
        Fault::DistanceFromPlace => {
            let mut accepted = judge(call, grid, scan, verdict);
            for station in &mut accepted {
                let (x, y) = call.shape().nearest(station.x as i32, station.y as i32);
                (station.x, station.y) = (x.into(), y.into());
            }
            accepted
        }
        _ => judge(call, grid, scan, verdict),
    }
}

/// The scheme with a fault in it.
pub fn faulty_run(call: &Call, fault: Fault) -> Analysis {
    if let Fault::Winds(fault) = fault {
        return faulty_winds::run(call, fault);
    }
    if let Fault::Rules(fault) = fault {
        return faulty_rules::run(call, fault);
    }
    if let Fault::Buddies(fault) = fault {
        return faulty_buddies::run(call, fault);
    }
    let mut call = call.clone();
    if fault == Fault::Missing32767 {
        let marks = call.value.iter_mut().filter(|value| **value == 32_767);
        marks.for_each(|value| *value = MISSING);
    }
    let mut grid = call.first_guess.clone();
    let mut support = vec![0; grid.len()];
    let mut verdict = faulty_verdicts(&call, fault);
    for scan in 0..call.scans as usize {
        if fault == Fault::TakenBack {
            verdict.iter_mut().filter(|verdict| **verdict > 10).for_each(|verdict| *verdict = 0);
        }
        let accepted = faulty_judge(&call, &grid, scan, &mut verdict, fault);
        match fault {
            Fault::HalvesTowardZero => halves_down(&call, scan, &accepted, &mut grid, &mut support),
            Fault::FedBySameScan => feeding(&call, scan, &verdict, &mut grid, &mut support),
            Fault::Weights(fault) => {
                faulty_weights::correct(&call, scan, &accepted, &mut grid, &mut support, fault)
            }
            _ => correct(&call, scan, WEIGHT_SCALE, &accepted, &mut grid, &mut support),
        }
        if call.smooth {
            grid = match fault {
                Fault::SmoothsBorder => smoothed_to_the_border(call.shape(), &grid),
                Fault::Smooths(slip) => smoothed_with(slip, call.shape(), &grid),
                _ => smoothed(call.shape(), &grid),
            };
        }
    }
    if fault == Fault::SupportOffByOneBit {
        support.iter_mut().for_each(|byte| *byte <<= 1);
    }
    if fault == Fault::VerdictOffByOne {
        verdict.iter_mut().filter(|verdict| **verdict > 10).for_each(|verdict| *verdict -= 1);
    }
    Analysis { grid, support, verdict }
}

fn halves_down(call: &Call, scan: usize, from: &[Accepted], grid: &mut [i32], support: &mut [u8]) {
    let shape = call.shape();
    for point in 0..shape.points() {
        let (i, j) = (point % shape.nx, point / shape.nx);
        let sums = sums(i, j, call.radius[scan], WEIGHT_SCALE, from);
        if sums.supports() {
            let alone = call.rule() == LISTINGS && sums.inside == 1;
            let over = if alone { WEIGHT_SCALE } else { sums.weights };
            let exact_half = 2 * (sums.weighted % over).abs() == over;
            let down = sums.weighted / over;
            let change = if exact_half { down } else { rounded(sums.weighted, over) };
            grid[point] += change as i32;
            support[point] |= 1 << scan;
        }
    }
}

/// Takes the differences afresh before each point, from the changing field.
fn feeding(call: &Call, scan: usize, verdict: &[u8], grid: &mut [i32], support: &mut [u8]) {
    let shape = call.shape();
    for point in 0..shape.points() {
        let rows = (0..verdict.len()).filter(|row| verdict[*row] == 0);
        let accepted: Vec<Accepted> =
            rows.map(|row| Accepted::new(call, row, difference(call, grid, row))).collect();
        let (i, j) = (point % shape.nx, point / shape.nx);
        let sums = sums(i, j, call.radius[scan], WEIGHT_SCALE, &accepted);
        grid[point] += sums.correction(call.rule(), WEIGHT_SCALE) as i32;
        support[point] |= u8::from(sums.supports()) << scan;
    }
}

/// Smooths border points too, with the border repeated outside.
fn smoothed_to_the_border(shape: Shape, field: &[i32]) -> Vec<i32> {
    let wide = Shape { nx: shape.nx + 2, ny: shape.ny + 2 };
    let inner = |at: usize, side: usize| at.clamp(1, side) - 1;
    let point = |at: usize| (inner(at % wide.nx, shape.nx), inner(at / wide.nx, shape.ny));
    let framed: Vec<i32> =
        (0..wide.points()).map(|at| field[shape.index(point(at).0, point(at).1)]).collect();
    let smooth = smoothed(wide, &framed);
    let columns = |j: usize| (0..shape.nx).map(move |i| wide.index(i + 1, j + 1));
    (0..shape.ny).flat_map(columns).map(|at| smooth[at]).collect()
}
