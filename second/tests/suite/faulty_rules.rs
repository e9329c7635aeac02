//! Rules with one planted fault each, for `faulty`'s subject.

use second::call::{Analysis, Call, Refusal};
use second::refusals::Checked;
use second::scan::{difference, judge, smoothed, weight, weight_at, Accepted};
use second::text;
use second::units::{
    rounded, ALONG_WIND, BORDER, DEFAULT_RULE, EQUATIONS, LISTINGS, MISSING, RULES, STEP,
    WEIGHT_SCALE,
};
use second::verdicts::{before_first_scan, ACCEPTED, REJECTED};

#[derive(Clone, Copy, Debug, PartialEq, Eq)]
pub enum RuleFault {
    /// Rule 1 for all, or rule 2; or the one for the other.
    Ignored,
    Always,
    Exchanged,
    /// What counts as inside: only what has a weight, also what has no part or none
    /// any more, what is at R², and what is no post.
    SilentUncounted,
    RejectedCounted,
    RejectedInThisScanCounted,
    RejectedBeforeCounted,
    DeadCounted,
    MissingCounted,
    OffGridCounted,
    RimCounted,
    PostsUncounted,
    /// Only stations on the point's own four sides count: a square, not a circle.
    SquareCounted,
    /// What is divided by what.
    ScaleForTwo,
    ScaleForAll,
    OverHundred,
    OverTheScaleLessOne,
    DividedTwice,
    InTwoSteps,
    Cut,
    Floored,
    HalvesTowardZero,
    HalvesUp,
    HalvesToEven,
    ProductInI32,
    /// Where the rule holds.
    OnlyInMode0,
    OnlyInMode1,
    OnlyInTheFirstScan,
    OnlyLater,
    OnlyInTheLastScan,
    OnlyWithSmoothing,
    OnlyWithoutSmoothing,
    OnlyInside,
    /// Which weight and which support.
    RoundWeightAlone,
    SupportByTheCorrection,
    SupportOfASilentOne,
    SilentOneMoves,
    /// A window's cut goes by rule 1.
    CutUnderTheDefault,
    /// Of calls.
    ThreePasses,
    ZeroPasses,
    OthersAreTheDefault,
    OthersAreTwo,
    InOneByte,
    InTwoBytes,
    GreatestPasses,
    BeforeResults,
    BeforeColumns,
    PlanBeforeRule,
    LastOfAll,
    SixForTheRule,
    PlaceOfTheRule,
    /// Of texts.
    DefaultIsTwo,
    LineUnread,
    LineNeeded,
    BeforeSmooth,
    AfterScans,
    Doubled,
    TextThree,
    TextZero,
    TextLeadingZero,
    TextPlus,
    TextEmpty,
    TextWraps,
    FiveForTheNumber,
    NextLineRefused,
    AbsentLineCounted,
}

use RuleFault::*;

/// Those that every kind of request shows.
pub const OF_NUMBERS: [RuleFault; 34] = [
    Ignored,
    Always,
    Exchanged,
    SilentUncounted,
    RejectedCounted,
    RejectedInThisScanCounted,
    RejectedBeforeCounted,
    DeadCounted,
    MissingCounted,
    OffGridCounted,
    RimCounted,
    PostsUncounted,
    SquareCounted,
    ScaleForTwo,
    ScaleForAll,
    OverHundred,
    OverTheScaleLessOne,
    DividedTwice,
    InTwoSteps,
    Cut,
    Floored,
    HalvesTowardZero,
    HalvesUp,
    HalvesToEven,
    ProductInI32,
    OnlyInTheFirstScan,
    OnlyLater,
    OnlyInTheLastScan,
    OnlyWithSmoothing,
    OnlyWithoutSmoothing,
    OnlyInside,
    SupportByTheCorrection,
    SupportOfASilentOne,
    SilentOneMoves,
];

/// Those that texts, which stay with mode 0, do not.
pub const OF_MODES: [RuleFault; 3] = [OnlyInMode0, OnlyInMode1, RoundWeightAlone];

pub const OF_REFUSALS: [RuleFault; 13] = [
    ThreePasses,
    ZeroPasses,
    OthersAreTheDefault,
    OthersAreTwo,
    InOneByte,
    InTwoBytes,
    GreatestPasses,
    BeforeResults,
    BeforeColumns,
    PlanBeforeRule,
    LastOfAll,
    SixForTheRule,
    PlaceOfTheRule,
];

pub const OF_TEXTS: [RuleFault; 15] = [
    DefaultIsTwo,
    LineUnread,
    LineNeeded,
    BeforeSmooth,
    AfterScans,
    Doubled,
    TextThree,
    TextZero,
    TextLeadingZero,
    TextPlus,
    TextEmpty,
    TextWraps,
    FiveForTheNumber,
    NextLineRefused,
    AbsentLineCounted,
];

/// The rule as a faulty test takes it.
fn taken(rule: u32, fault: RuleFault) -> u32 {
    match fault {
        ThreePasses if rule == 3 => LISTINGS,
        ZeroPasses if rule == 0 => EQUATIONS,
        OthersAreTheDefault if !RULES.contains(&rule) => DEFAULT_RULE,
        OthersAreTwo if !RULES.contains(&rule) => LISTINGS,
        InOneByte => rule % 256,
        InTwoBytes => rule % 65_536,
        GreatestPasses if rule == u32::MAX => DEFAULT_RULE,
        _ => rule,
    }
}

/// The test of a call with a fault in it.
pub fn check(call: &Call, fault: RuleFault, test: &dyn Fn(&Call) -> Checked) -> Checked {
    let right = test(&Call { rule: Some(taken(call.rule(), fault)), ..call.clone() });
    let is_bad = !RULES.contains(&call.rule());
    let number = right.err().map_or(0, |refusal| refusal.number);
    // What would be said if the rule were good.
    let rest = test(&Call { rule: None, ..call.clone() });
    let later = rest.err().map_or(0, |refusal| refusal.number);
    match fault {
        BeforeResults if is_bad && number == 3 => Err(Refusal::new(5, 0)),
        BeforeColumns if is_bad && number == 4 => Err(Refusal::new(5, 0)),
        PlanBeforeRule if number == 5 && later == 6 => rest,
        LastOfAll if number == 5 && later > 5 => rest,
        SixForTheRule if is_bad && number == 5 && later != 5 => Err(Refusal::new(6, 0)),
        PlaceOfTheRule if is_bad && number == 5 && later != 5 => Err(Refusal::new(5, 1)),
        _ => right,
    }
}

/// The call as one goes on with it who has it pass.
pub fn tamed(call: &Call, fault: RuleFault) -> Call {
    Call { rule: call.rule.map(|rule| taken(rule, fault)), ..call.clone() }
}

/// The answer to a text, with a fault of the rule's line or of the rule.
pub fn text(request: &[u8], fault: RuleFault) -> Vec<u8> {
    let read = as_read(request, fault);
    let mut answer = text::decide(&read).map(|(mut call, _)| {
        match fault {
            DefaultIsTwo => call.rule = call.rule.or(Some(LISTINGS)),
            LineUnread => call.rule = None,
            _ => (),
        }
        let analysis = run(&call, fault);
        (call, analysis)
    });
    let lines: Vec<&[u8]> = request.split_inclusive(|byte| *byte == b'\n').collect();
    let has_line = lines.iter().any(|line| line.starts_with(b"rule="));
    if let Err(refusal) = &mut answer {
        let at = lines.get((refusal.place as usize).wrapping_sub(1));
        let at_rule = refusal.number == 9 && at.is_some_and(|line| line.starts_with(b"rule="));
        let number = at.and_then(|line| line.strip_prefix(b"rule=")?.strip_suffix(b"\n"));
        let whole = number.is_some_and(|n| [&b"0"[..], b"3", b"4", b"12"].contains(&n));
        match fault {
            FiveForTheNumber if at_rule && whole => *refusal = Refusal::new(5, 0),
            NextLineRefused if at_rule => refusal.place += 1,
            AbsentLineCounted if refusal.number == 9 && !has_line && refusal.place > 4 => {
                refusal.place += 1;
            }
            _ => (),
        }
    }
    if fault == LineNeeded && answer.is_ok() && !has_line {
        answer = Err(Refusal::new(9, 4));
    }
    text::print(&answer)
}

/// The text as somebody reads it who lets more pass: as the one that is in form.
fn as_read(request: &[u8], fault: RuleFault) -> Vec<u8> {
    let mut lines: Vec<&[u8]> = request.split_inclusive(|byte| *byte == b'\n').collect();
    let key = |line: &[u8], key: &[u8]| line.starts_with(key);
    let Some(at) = lines.iter().position(|line| key(line, b"rule=")) else {
        return request.to_vec();
    };
    let after = lines.get(at + 1).copied().unwrap_or_default();
    match fault {
        BeforeSmooth if key(after, b"smooth=") => lines.swap(at, at + 1),
        AfterScans if at > 0 && key(lines[at - 1], b"scans=") => lines.swap(at - 1, at),
        Doubled if key(after, b"rule=") => drop(lines.remove(at)),
        TextThree if lines[at] == b"rule=3\n" => lines[at] = b"rule=2\n",
        TextZero if lines[at] == b"rule=0\n" => lines[at] = b"rule=1\n",
        TextLeadingZero if key(lines[at], b"rule=0") && lines[at].ends_with(b"1\n") => {
            lines[at] = b"rule=1\n";
        }
        TextLeadingZero if key(lines[at], b"rule=0") && lines[at].ends_with(b"2\n") => {
            lines[at] = b"rule=2\n";
        }
        TextPlus if lines[at] == b"rule=+1\n" => lines[at] = b"rule=1\n",
        TextPlus if lines[at] == b"rule=+2\n" => lines[at] = b"rule=2\n",
        TextEmpty if lines[at] == b"rule=\n" => lines[at] = b"rule=1\n",
        TextWraps if lines[at].ends_with(b"7\n") && lines[at].len() > 14 => lines[at] = b"rule=1\n",
        TextWraps if lines[at].ends_with(b"8\n") && lines[at].len() > 14 => lines[at] = b"rule=2\n",
        _ => (),
    }
    lines.concat()
}

/// The scheme with a fault of the rule.
pub fn run(call: &Call, fault: RuleFault) -> Analysis {
    let mut grid = call.first_guess.clone();
    let mut support = vec![0; grid.len()];
    let mut verdict = before_first_scan(call, BORDER);
    for scan in 0..call.scans as usize {
        let accepted = judge(call, &grid, scan, &mut verdict);
        let others = counted_too(call, &grid, scan, &verdict, fault);
        correct(call, scan, &accepted, &others, &mut grid, &mut support, fault);
        if call.smooth {
            grid = smoothed(call.shape(), &grid);
        }
    }
    Analysis { grid, support, verdict }
}

/// The rows that are not accepted, and counted all the same.
fn counted_too(
    call: &Call,
    grid: &[i32],
    scan: usize,
    verdict: &[u8],
    fault: RuleFault,
) -> Vec<Accepted> {
    let now = REJECTED + 1 + scan as u8;
    let is_counted = |verdict: u8| match fault {
        RejectedCounted => verdict > REJECTED,
        RejectedInThisScanCounted => verdict == now,
        RejectedBeforeCounted => verdict > REJECTED && verdict < now,
        DeadCounted => verdict != ACCEPTED && verdict < REJECTED,
        MissingCounted => verdict == 1,
        OffGridCounted => verdict == 5,
        _ => false,
    };
    let rows = (0..verdict.len()).filter(|row| is_counted(verdict[*row]));
    let d = |row: usize| if call.value[row] == MISSING { 0 } else { difference(call, grid, row) };
    rows.map(|row| Accepted::new(call, row, d(row))).collect()
}

/// Whether the rule holds in a scan.
fn is_heeded(call: &Call, scan: usize, fault: RuleFault) -> bool {
    let asked = call.rule() == LISTINGS;
    let last = call.scans as usize - 1;
    match fault {
        Ignored => false,
        Always => true,
        Exchanged => !asked,
        OnlyInMode0 => asked && call.mode != ALONG_WIND,
        OnlyInMode1 => asked && call.mode == ALONG_WIND,
        OnlyInTheFirstScan => asked && scan == 0,
        OnlyLater => asked && scan > 0,
        OnlyInTheLastScan => asked && scan == last,
        OnlyWithSmoothing => asked && call.smooth,
        OnlyWithoutSmoothing => asked && !call.smooth,
        _ => asked,
    }
}

fn correct(
    call: &Call,
    scan: usize,
    accepted: &[Accepted],
    others: &[Accepted],
    grid: &mut [i32],
    support: &mut [u8],
    fault: RuleFault,
) {
    let (radius, shape) = (i64::from(call.radius[scan]), call.shape());
    let r2 = radius * radius;
    let heeded = is_heeded(call, scan, fault);
    for (point, value) in grid.iter_mut().enumerate() {
        let (i, j) = (point % shape.nx, point / shape.nx);
        let (x, y) = (STEP * i as i64, STEP * j as i64);
        let square = |station: &Accepted| {
            let (dx, dy) = station.offset(x, y);
            dx * dx + dy * dy
        };
        let is_post = |station: &Accepted| !shape.holds(station.x as i32, station.y as i32);
        let weight_of =
            |station: &Accepted| weight_at(WEIGHT_SCALE, r2, station.offset(x, y), station.wind);
        let is_inside = |station: &&Accepted| {
            let (dx, dy) = station.offset(x, y);
            match fault {
                SilentUncounted => weight_of(station) > 0,
                RimCounted => square(station) <= r2,
                PostsUncounted => square(station) < r2 && !is_post(station),
                SquareCounted => dx.abs() < radius && dy.abs() < radius,
                _ => square(station) < r2,
            }
        };
        let inside = accepted.iter().chain(others).filter(is_inside).count();
        let weights: i64 = accepted.iter().map(weight_of).sum();
        let weighted: i64 = accepted.iter().map(|one| weight_of(one) * one.difference).sum();
        let border = i == 0 || j == 0 || i + 1 == shape.nx || j + 1 == shape.ny;
        let mut change = if weights > 0 { rounded(weighted, weights) } else { 0 };
        let is_lone = match fault {
            ScaleForTwo => inside == 1 || inside == 2,
            ScaleForAll => inside > 0,
            OnlyInside => inside == 1 && !border,
            _ => inside == 1,
        };
        let mut supports = weights > 0;
        if heeded && is_lone {
            let round = |one: &&Accepted| square(one) < r2;
            let round = accepted
                .iter()
                .find(round)
                .map_or(0, |one| weight(r2, square(one)) * one.difference);
            change = divided(if fault == RoundWeightAlone { round } else { weighted }, fault);
            supports = match fault {
                SupportByTheCorrection => change != 0,
                SupportOfASilentOne => true,
                _ => supports,
            };
        }
        if fault == SilentOneMoves && heeded && is_lone && weights == 0 {
            change = accepted.iter().find(is_inside).map_or(0, |one| one.difference);
        }
        *value = value.wrapping_add(change as i32);
        support[point] |= u8::from(supports) << scan;
    }
}

/// A lone station's weight·D over the scale, with the fault.
fn divided(product: i64, fault: RuleFault) -> i64 {
    let scale = WEIGHT_SCALE;
    let half = 2 * product.rem_euclid(scale) == scale;
    match fault {
        OverHundred => rounded(product, 100),
        OverTheScaleLessOne => rounded(product, scale - 1),
        DividedTwice => rounded(rounded(product, scale), scale),
        InTwoSteps => rounded(rounded(product, 100), 100),
        Cut => product / scale,
        Floored => product.div_euclid(scale),
        HalvesTowardZero if half => product / scale,
        HalvesUp if half => product.div_euclid(scale) + 1,
        HalvesToEven if half => {
            let below = product.div_euclid(scale);
            below + below.rem_euclid(2)
        }
        ProductInI32 => rounded((product as i32).into(), scale),
        _ => rounded(product, scale),
    }
}
