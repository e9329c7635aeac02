//! Buddy checks with one planted fault each, for `faulty`'s subject. What is wrong with
//! the reading of texts is in `faulty_lines`.

use crate::windows::{from_part, picked_from};
use second::buddy::Neighbours;
use second::call::{Analysis, Buddy, Call, Refusal, Window, WindowAnswer};
use second::refusals::Checked;
use second::scan::{correct, difference, smoothed, sums, survivors, Accepted};
use second::units::{
    rounded, ALONG_WIND, BORDER, BUDDY_LIMIT, BUDDY_RADIUS, LISTINGS, MISSING, STEP, WEIGHT_SCALE,
};
use second::verdicts::{before_first_scan, ACCEPTED, REJECTED, SET_ASIDE};
use second::window::{cut, reach, widened};

#[derive(Clone, Copy, Debug, PartialEq, Eq)]
pub enum BuddyFault {
    /// Whether there is a check.
    Ignored,
    ReadWhenOff,
    OnWhereLeftOut,
    Exchanged,
    LimitOfTheScan,
    RadiusOfTheScan,
    OnlyInTheFirstScan,
    OnlyInTheLastScan,
    OnlyLater,
    OnlyInMode0,
    OnlyInMode1,
    OnlyUnderRule1,
    OnlyUnderRule2,
    OnlyWithSmoothing,
    OnlyWithoutSmoothing,
    /// How many neighbours it takes, and who is one.
    OneIsEnough,
    ThreeAreNeeded,
    ItselfANeighbour,
    ByNearestPlaces,
    AtTheRim,
    InASquare,
    TheNearestTwoAlone,
    NoneAtItsPlace,
    NoPosts,
    BeforeTheLimits,
    RejectedInThisScan,
    RejectedBefore,
    SetAsideBefore,
    Dead,
    OnlyThoseBefore,
    /// What is compared with what.
    LimitOnce,
    AtTheLimit,
    AboveAlone,
    BelowAlone,
    BySizes,
    MeanCut,
    MeanFloored,
    MeanRounded,
    FieldForPosts,
    FirstGuessForAll,
    /// In which order, and what becomes of those who go.
    InTurn,
    FromTheLastOn,
    UntilNobodyGoes,
    TheWorstAlone,
    ForThisScanAlone,
    StillWeighs,
    StillInside,
    StillSupports,
    VerdictOfARejected,
    VerdictFrom20,
    VerdictOfTheFirstScan,
    /// Cuts.
    CutByRAlone,
    CutByBAlone,
    CutByTheGreater,
    CutByBOnce,
    CutWithoutSmoothing,
    CutRoundedDown,
    CutWithoutTheCheck,
    /// Refusals.
    PlaceOfAScan,
    PlaceOfTheLastScan,
    BeforeTheScans,
    AfterTheFirstGuess,
    LastOfAll,
    FiveForTheCheck,
    TestedWhenOff,
    RadiusUntested,
    LimitUntested,
    Radius0Passes,
    Radius513Passes,
    Radius1Refused,
    Radius512Refused,
    LimitBelow0Passes,
    LimitPastTheMostPasses,
    Limit0Refused,
    GreatestLimitRefused,
}

use BuddyFault::*;

/// Those that every kind of request shows.
pub const OF_NUMBERS: [BuddyFault; 44] = [
    Ignored,
    Exchanged,
    OnWhereLeftOut,
    LimitOfTheScan,
    RadiusOfTheScan,
    OnlyInTheFirstScan,
    OnlyInTheLastScan,
    OnlyLater,
    OnlyUnderRule1,
    OnlyUnderRule2,
    OnlyWithSmoothing,
    OnlyWithoutSmoothing,
    OneIsEnough,
    ThreeAreNeeded,
    ItselfANeighbour,
    ByNearestPlaces,
    AtTheRim,
    InASquare,
    TheNearestTwoAlone,
    NoneAtItsPlace,
    NoPosts,
    BeforeTheLimits,
    RejectedInThisScan,
    RejectedBefore,
    SetAsideBefore,
    Dead,
    OnlyThoseBefore,
    LimitOnce,
    AtTheLimit,
    AboveAlone,
    BelowAlone,
    BySizes,
    MeanCut,
    MeanFloored,
    MeanRounded,
    FieldForPosts,
    FirstGuessForAll,
    InTurn,
    FromTheLastOn,
    UntilNobodyGoes,
    TheWorstAlone,
    ForThisScanAlone,
    StillWeighs,
    StillInside,
];

/// Those that only points without another station show.
pub const OF_SUPPORT: [BuddyFault; 1] = [StillSupports];

/// Those that windows and screens, which give no verdicts, do not show.
pub const OF_VERDICTS: [BuddyFault; 3] = [VerdictOfARejected, VerdictFrom20, VerdictOfTheFirstScan];

/// Those that texts, which have no mode and no check that is off, do not.
pub const OF_CALLS: [BuddyFault; 3] = [ReadWhenOff, OnlyInMode0, OnlyInMode1];

pub const OF_CUTS: [BuddyFault; 7] = [
    CutByRAlone,
    CutByBAlone,
    CutByTheGreater,
    CutByBOnce,
    CutWithoutSmoothing,
    CutRoundedDown,
    CutWithoutTheCheck,
];

pub const OF_REFUSALS: [BuddyFault; 16] = [
    PlaceOfAScan,
    PlaceOfTheLastScan,
    BeforeTheScans,
    AfterTheFirstGuess,
    LastOfAll,
    FiveForTheCheck,
    RadiusUntested,
    LimitUntested,
    Radius0Passes,
    Radius513Passes,
    Radius1Refused,
    Radius512Refused,
    LimitBelow0Passes,
    LimitPastTheMostPasses,
    Limit0Refused,
    GreatestLimitRefused,
];

pub const OF_REFUSED_CALLS: [BuddyFault; 1] = [TestedWhenOff];

/// A check that anybody might have for want of one.
const ANY: Buddy = Buddy { on: true, radius: 128, limit: 20 };

/// The check as a faulty test takes it.
fn taken(buddy: Option<Buddy>, fault: BuddyFault) -> Option<Buddy> {
    let mut buddy = buddy?;
    match fault {
        TestedWhenOff => buddy.on = true,
        RadiusUntested => buddy.radius = 1,
        LimitUntested => buddy.limit = 0,
        Radius0Passes if buddy.radius == 0 => buddy.radius = 1,
        Radius513Passes if buddy.radius == 513 => buddy.radius = 512,
        Radius1Refused if buddy.radius == 1 => buddy.radius = 0,
        Radius512Refused if buddy.radius == 512 => buddy.radius = 513,
        LimitBelow0Passes if buddy.limit < 0 => buddy.limit = 0,
        LimitPastTheMostPasses if buddy.limit == 2_000_001 => buddy.limit = 2_000_000,
        Limit0Refused if buddy.limit == 0 => buddy.limit = -1,
        GreatestLimitRefused if buddy.limit == 2_000_000 => buddy.limit = 2_000_001,
        _ => (),
    }
    Some(buddy)
}

/// The test of a call with a fault in it.
pub fn check(call: &Call, fault: BuddyFault, test: &dyn Fn(&Call) -> Checked) -> Checked {
    let right = test(&Call { buddy: taken(call.buddy, fault), ..call.clone() });
    let given = right.err().unwrap_or(Refusal::new(0, 0));
    let by_check = given == Refusal::new(6, 6);
    let is_bad = call.check().is_some_and(|check| {
        !BUDDY_RADIUS.contains(&check.radius) || !BUDDY_LIMIT.contains(&check.limit)
    });
    // What would be said if there were no check.
    let rest = test(&Call { buddy: None, ..call.clone() });
    let later = rest.err().map_or(0, |refusal| refusal.number);
    match fault {
        PlaceOfAScan if by_check => Err(Refusal::new(6, 0)),
        PlaceOfTheLastScan if by_check => Err(Refusal::new(6, call.scans)),
        BeforeTheScans if is_bad && given.number == 6 => Err(Refusal::new(6, 6)),
        AfterTheFirstGuess if by_check && later == 7 => rest,
        LastOfAll if by_check && later > 6 => rest,
        FiveForTheCheck if by_check => Err(Refusal::new(5, 0)),
        _ => right,
    }
}

/// The call as one goes on with it who has it pass.
pub fn tamed(call: &Call, fault: BuddyFault) -> Call {
    let buddy = match fault {
        ReadWhenOff => call.buddy.map(|buddy| Buddy { on: true, ..buddy }),
        OnWhereLeftOut => call.buddy.or(Some(ANY)),
        Exchanged => call.buddy.map(|buddy| Buddy {
            radius: buddy.limit.min(4_096),
            limit: buddy.radius,
            ..buddy
        }),
        Ignored => None,
        _ => call.buddy,
    };
    let buddy = buddy.map(|buddy| Buddy {
        radius: buddy.radius.clamp(0, 4_096),
        limit: buddy.limit.clamp(0, 2_000_001),
        ..buddy
    });
    Call { buddy, ..call.clone() }
}

/// The steps of a cut as somebody counts them.
fn steps(call: &Call, fault: BuddyFault) -> u32 {
    let b = call.check().map_or(0, |check| check.radius.unsigned_abs());
    let step = STEP as u32;
    let smoothing = call.scans * u32::from(call.smooth);
    let radii = call.radius[..call.scans as usize].iter().map(|radius| radius.unsigned_abs());
    let sum = |of: &dyn Fn(u32) -> u32| radii.clone().map(of).sum::<u32>();
    match fault {
        CutByRAlone => sum(&|r| r.div_ceil(step)) + smoothing,
        CutByBAlone if b > 0 => sum(&|_| b.div_ceil(step)) + smoothing,
        CutByTheGreater => sum(&|r| r.max(b).div_ceil(step)) + smoothing,
        CutByBOnce => sum(&|r| r.div_ceil(step)) + b.div_ceil(step) + smoothing,
        CutWithoutSmoothing if b > 0 => sum(&|r| (r + b).div_ceil(step)),
        CutRoundedDown if b > 0 => (sum(&|r| (r + b) / step) + smoothing).max(1),
        _ => reach(call),
    }
}

/// A window by a cut with a fault, if that is where it is.
pub fn window(call: &Call, ends: &Window, fault: BuddyFault) -> Option<WindowAnswer> {
    let part = widened(call, ends, reach(call));
    match fault {
        CutWithoutTheCheck => {
            let cut = Call { buddy: None, ..cut(call, &part) };
            Some(picked_from(&cut, ends, &part))
        }
        fault if OF_CUTS.contains(&fault) => {
            let part = widened(call, ends, steps(call, fault));
            let is_grid = part.left < part.right && part.top < part.bottom;
            is_grid.then(|| from_part(call, ends, &part))
        }
        _ => None,
    }
}

/// The scheme with a fault of the check.
pub fn run(call: &Call, fault: BuddyFault) -> Analysis {
    let mut grid = call.first_guess.clone();
    let mut support = vec![0; grid.len()];
    let mut verdict = before_first_scan(call, BORDER);
    for scan in 0..call.scans as usize {
        if fault == ForThisScanAlone {
            let aside = verdict.iter_mut().filter(|verdict| **verdict > SET_ASIDE);
            aside.for_each(|verdict| *verdict = ACCEPTED);
        }
        let accepted = judge(call, &grid, scan, &mut verdict, fault);
        let gone = aside(call, &grid, &verdict);
        match fault {
            StillInside => {
                correct_with(call, scan, &accepted, &gone, &mut grid, &mut support, false);
            }
            StillSupports => {
                correct_with(call, scan, &accepted, &gone, &mut grid, &mut support, true);
            }
            _ => correct(call, scan, WEIGHT_SCALE, &accepted, &mut grid, &mut support),
        }
        if call.smooth {
            grid = smoothed(call.shape(), &grid);
        }
    }
    Analysis { grid, support, verdict }
}

fn aside(call: &Call, grid: &[i32], verdict: &[u8]) -> Vec<Accepted> {
    let rows = (0..verdict.len()).filter(|row| verdict[*row] > SET_ASIDE);
    rows.map(|row| Accepted::new(call, row, difference(call, grid, row))).collect()
}

/// As one corrects who counts stations that are set aside as inside, or as support.
fn correct_with(
    call: &Call,
    scan: usize,
    accepted: &[Accepted],
    gone: &[Accepted],
    grid: &mut [i32],
    support: &mut [u8],
    supports: bool,
) {
    let nx = call.shape().nx;
    for (point, value) in grid.iter_mut().enumerate() {
        let at =
            |from: &[Accepted]| sums(point % nx, point / nx, call.radius[scan], WEIGHT_SCALE, from);
        let (mut here, other) = (at(accepted), at(gone));
        if supports {
            support[point] |= u8::from(here.supports() || other.supports()) << scan;
        } else {
            here.inside += other.inside;
            support[point] |= u8::from(here.supports()) << scan;
        }
        *value += here.correction(call.rule(), WEIGHT_SCALE) as i32;
    }
}

/// The check as it is heeded in a scan, with its B and L.
fn heeded(call: &Call, scan: usize, fault: BuddyFault) -> Option<(i64, i64)> {
    let check = call.check()?;
    let along = call.mode == ALONG_WIND;
    let listed = call.rule() == LISTINGS;
    let last = call.scans as usize - 1;
    let holds = match fault {
        OnlyInTheFirstScan => scan == 0,
        OnlyInTheLastScan => scan == last,
        OnlyLater => scan > 0,
        OnlyInMode0 => !along,
        OnlyInMode1 => along,
        OnlyUnderRule1 => !listed,
        OnlyUnderRule2 => listed,
        OnlyWithSmoothing => call.smooth,
        OnlyWithoutSmoothing => !call.smooth,
        _ => true,
    };
    let radius = if fault == RadiusOfTheScan { call.radius[scan] } else { check.radius };
    let limit = if fault == LimitOfTheScan { call.limit[scan] } else { check.limit };
    holds.then_some((radius.into(), limit.into()))
}

/// Both tests of a scan.
fn judge(
    call: &Call,
    grid: &[i32],
    scan: usize,
    verdict: &mut [u8],
    fault: BuddyFault,
) -> Vec<Accepted> {
    let mut before = verdict.to_vec();
    let mut passed = survivors(call, grid, scan, verdict);
    if fault == BeforeTheLimits {
        // All are judged who are left, and then those by the limit who are not gone.
        let all = Call { limit: vec![i32::MAX; call.scans as usize], ..call.clone() };
        passed = survivors(&all, grid, scan, &mut before);
    }
    let Some((radius, limit)) = heeded(call, scan, fault) else {
        return survivors(call, grid, scan, verdict);
    };
    let company = company(call, grid, scan, &passed, &before, verdict, fault);
    let company: Vec<Accepted> =
        company.iter().map(|one| as_seen(call, grid, one, fault)).collect();
    let round = Round { call, radius, limit, fault };
    let gone = round.gone(&passed, &company, grid);
    let given = match fault {
        VerdictOfARejected => REJECTED + 1 + scan as u8,
        VerdictFrom20 => SET_ASIDE + scan as u8,
        VerdictOfTheFirstScan => SET_ASIDE + 1,
        _ => SET_ASIDE + 1 + scan as u8,
    };
    let judged = verdict.to_vec();
    gone.iter().for_each(|row| verdict[*row] = given);
    let kept = |one: &Accepted| {
        (fault == StillWeighs || !gone.contains(&one.row)) && judged[one.row] == ACCEPTED
    };
    passed.into_iter().filter(kept).collect()
}

/// Those among whom neighbours are looked for.
fn company(
    call: &Call,
    grid: &[i32],
    scan: usize,
    passed: &[Accepted],
    before: &[u8],
    judged: &[u8],
    fault: BuddyFault,
) -> Vec<Accepted> {
    let now = REJECTED + 1 + scan as u8;
    let is_one = |row: &usize| match (fault, before[*row], judged[*row]) {
        (RejectedInThisScan, ACCEPTED, judged) => judged == now,
        (RejectedBefore, before, _) => before > REJECTED && before < SET_ASIDE,
        (SetAsideBefore, before, _) => before > SET_ASIDE,
        (Dead, before, _) => before != ACCEPTED && before < REJECTED,
        _ => false,
    };
    let d = |row: usize| if call.value[row] == MISSING { 0 } else { difference(call, grid, row) };
    let others = (0..judged.len()).filter(is_one);
    let others = others.map(|row| Accepted::new(call, row, d(row)));
    let no_post = |one: &&Accepted| call.shape().holds(one.x as i32, one.y as i32);
    let passed = passed.iter().filter(|one| fault != NoPosts || no_post(one));
    passed.copied().chain(others).collect()
}

/// A station with the place and the difference that somebody goes by.
fn as_seen(call: &Call, grid: &[i32], one: &Accepted, fault: BuddyFault) -> Accepted {
    let mut seen = *one;
    let on_field = |field: &[i32]| {
        let call = Call { first_guess: field.to_vec(), ..call.clone() };
        difference(&call, field, one.row)
    };
    match fault {
        ByNearestPlaces => {
            let (x, y) = call.shape().nearest(one.x as i32, one.y as i32);
            (seen.x, seen.y) = (x.into(), y.into());
        }
        BySizes => seen.difference = one.difference.abs(),
        FieldForPosts => seen.difference = on_field(grid),
        FirstGuessForAll => seen.difference = on_field(&call.first_guess),
        _ => (),
    }
    seen
}

/// A check with a fault, and its B and L.
struct Round<'a> {
    call: &'a Call,
    radius: i64,
    limit: i64,
    fault: BuddyFault,
}

impl Round<'_> {
    /// The rows of those who are set aside.
    fn gone(&self, passed: &[Accepted], company: &[Accepted], grid: &[i32]) -> Vec<usize> {
        let seen = |one: &Accepted| as_seen(self.call, grid, one, self.fault);
        let goes = |one: &&Accepted, among: &[Accepted]| self.goes(&seen(one), among);
        let rows = |gone: Vec<&Accepted>| gone.into_iter().map(|one| one.row).collect();
        match self.fault {
            InTurn => in_turn(passed.iter(), company, &goes),
            FromTheLastOn => in_turn(passed.iter().rev(), company, &goes),
            UntilNobodyGoes => self.until_nobody_goes(passed, company, &goes),
            TheWorstAlone => {
                let gone = passed.iter().filter(|one| goes(one, company));
                let apart = |one: &&Accepted| self.near(&seen(one), company).apart(one.difference);
                rows(gone.max_by_key(apart).into_iter().collect())
            }
            _ => rows(passed.iter().filter(|one| goes(one, company)).collect()),
        }
    }

    fn until_nobody_goes(
        &self,
        passed: &[Accepted],
        company: &[Accepted],
        goes: &dyn Fn(&&Accepted, &[Accepted]) -> bool,
    ) -> Vec<usize> {
        let mut gone = Vec::new();
        loop {
            let left: Vec<Accepted> =
                company.iter().filter(|one| !gone.contains(&one.row)).copied().collect();
            let staying = passed.iter().filter(|one| !gone.contains(&one.row));
            let next: Vec<usize> = staying.filter(|one| goes(one, &left)).map(|o| o.row).collect();
            if next.is_empty() {
                return gone;
            }
            gone.extend(next);
        }
    }

    fn near(&self, station: &Accepted, company: &[Accepted]) -> Neighbours {
        let b2 = self.radius * self.radius;
        let is_near = |other: &&Accepted| {
            let (dx, dy) = other.offset(station.x, station.y);
            let d2 = dx * dx + dy * dy;
            match self.fault {
                AtTheRim => d2 <= b2,
                InASquare => dx.abs().max(dy.abs()) < self.radius,
                NoneAtItsPlace => 0 < d2 && d2 < b2,
                _ => d2 < b2,
            }
        };
        let is_one = |other: &&Accepted| match self.fault {
            ItselfANeighbour => true,
            OnlyThoseBefore => other.row < station.row,
            _ => other.row != station.row,
        };
        let mut near: Vec<&Accepted> = company.iter().filter(is_near).filter(is_one).collect();
        if self.fault == TheNearestTwoAlone {
            let square = |other: &&Accepted| {
                let (dx, dy) = other.offset(station.x, station.y);
                dx * dx + dy * dy
            };
            near.sort_by_key(square);
            near.truncate(2);
        }
        Neighbours { count: near.len(), sum: near.iter().map(|other| other.difference).sum() }
    }

    fn goes(&self, station: &Accepted, company: &[Accepted]) -> bool {
        let near = self.near(station, company);
        let (count, d) = (near.count as i64, station.difference);
        let least = match self.fault {
            OneIsEnough => 1,
            ThreeAreNeeded => 3,
            _ => 2,
        };
        if near.count < least {
            return false;
        }
        let (apart, most) = (near.apart(d), count * self.limit);
        match self.fault {
            LimitOnce => apart > self.limit,
            AtTheLimit => apart >= most,
            AboveAlone => count * d - near.sum > most,
            BelowAlone => near.sum - count * d > most,
            MeanCut => (d - near.sum / count).abs() > self.limit,
            MeanFloored => (d - near.sum.div_euclid(count)).abs() > self.limit,
            MeanRounded => (d - rounded(near.sum, count)).abs() > self.limit,
            _ => apart > most,
        }
    }
}

/// Judges one after another, those gone left out.
fn in_turn<'a>(
    turn: impl Iterator<Item = &'a Accepted>,
    company: &[Accepted],
    goes: &dyn Fn(&&Accepted, &[Accepted]) -> bool,
) -> Vec<usize> {
    let mut left = company.to_vec();
    let mut gone = Vec::new();
    for one in turn {
        if goes(&one, &left) {
            left.retain(|other| other.row != one.row);
            gone.push(one.row);
        }
    }
    gone
}
