//! What a run has covered, and the floors below which a run fails.

use crate::call::{Analysis, Call, Refusal, Winds};
use crate::field_sorts;
use crate::query_sorts::NO_POINTS;
use crate::rule_sorts;
use crate::screen_sorts;
use crate::sorts::{Sort, SMALL_OF_BIG, WRAPPED};
use crate::units::{LIMIT, SIDE};
use std::collections::BTreeMap;
use std::fmt::{Display, Formatter};

/// Floors are given for a run of this many; smaller runs scale them down.
const FULL_RUN: u64 = 20_000;
/// The names under which there is one number only, which says nothing.
const UNNUMBERED: [&str; 8] = [
    "accepted",
    "big",
    SMALL_OF_BIG,
    WRAPPED,
    NO_POINTS,
    screen_sorts::WRAPPED,
    field_sorts::WRAPPED,
    rule_sorts::RIM,
];

/// How often something was seen, by its name and number.
#[derive(Clone, Debug, Default, PartialEq, Eq)]
pub struct Tally {
    pub count: u64,
    pub seen: BTreeMap<(&'static str, u32), u64>,
}

#[derive(Clone, Copy, Debug)]
pub struct Floor {
    pub name: &'static str,
    pub number: u32,
    /// The least in a full run.
    pub least: u64,
    pub growth: Growth,
}

/// What becomes of a floor in a run of another length.
#[derive(Clone, Copy, Debug, PartialEq, Eq)]
pub enum Growth {
    /// Shorter runs lower it and longer runs raise it.
    Share,
    /// Shorter runs lower it.
    Times,
    Fixed,
}

impl Floor {
    pub fn times(name: &'static str, number: u32, least: u64) -> Self {
        Floor { name, number, least, growth: Growth::Times }
    }

    pub fn fixed(name: &'static str, number: u32, least: u64) -> Self {
        Floor { name, number, least, growth: Growth::Fixed }
    }

    pub fn accepted_share(least: u64) -> Self {
        Floor { name: "accepted", number: 0, least, growth: Growth::Share }
    }

    fn scaled(&self, count: u64) -> u64 {
        match self.growth {
            Growth::Share => self.least * count / FULL_RUN,
            Growth::Times => self.least * count.min(FULL_RUN) / FULL_RUN,
            Growth::Fixed => self.least,
        }
    }
}

impl Tally {
    pub fn add(&mut self, name: &'static str, number: u32) {
        *self.seen.entry((name, number)).or_default() += 1;
    }

    /// Adds what another tally has seen.
    pub fn add_all(&mut self, other: &Tally) {
        self.count += other.count;
        for (sort, seen) in &other.seen {
            *self.seen.entry(*sort).or_default() += seen;
        }
    }

    pub fn of(&self, name: &'static str, number: u32) -> u64 {
        self.seen.get(&(name, number)).copied().unwrap_or(0)
    }

    pub fn add_refusal(&mut self, refusal: &Refusal) {
        self.add("refusal", refusal.number);
        if refusal.place > 0 {
            self.add("refusal with a place", refusal.number);
        }
    }

    pub fn add_analysis(&mut self, call: &Call, analysis: &Analysis) {
        self.add("accepted", 0);
        if call.nx >= 48 && call.ny >= 48 && call.x.len() >= 300 {
            self.add("big", 0);
        }
        for verdict in &analysis.verdict {
            self.add("verdict", u32::from(*verdict));
        }
    }

    pub fn add_sorts(&mut self, sorts: &[Sort]) {
        sorts.iter().for_each(|(name, number)| self.add(name, *number));
    }

    /// What only a C call can be handed: empty slices, lengths that do not
    /// fit, and plan entries that are not read. By refusal number, 0 for none.
    /// `asked` are the lengths that the results have to have; it is looked at
    /// only where the tests before refusal 3 let the call pass.
    pub fn add_lengths(&mut self, call: &Call, results: &[usize], asked: &[usize], refusal: u32) {
        let (points, rows) = (call.first_guess.len(), call.x.len());
        let minutes = [&call.observed, &call.from, &call.until].map(Vec::len);
        let winds: Vec<usize> = call.winds.iter().flat_map(Winds::columns).map(Vec::len).collect();
        let columns = [&[call.y.len(), call.value.len()], &minutes[..], &winds].concat();
        let others = [points, rows, call.radius.len(), call.limit.len()];
        if columns.iter().chain(results).chain(&others).any(|length| *length == 0) {
            self.add("empty slice", refusal);
        }
        let most_off = |given: &[usize], asked: &[usize]| {
            given.iter().zip(asked).map(|(given, asked)| given.abs_diff(*asked)).max().unwrap_or(0)
        };
        let off = match refusal {
            1 if SIDE.contains(&call.nx) && SIDE.contains(&call.ny) => {
                points.abs_diff(call.shape().points())
            }
            3 => most_off(results, asked),
            4 => most_off(&columns, &vec![rows; columns.len()]),
            _ => 0,
        };
        match off {
            0 => (),
            1 => self.add("length off by one", refusal),
            _ => self.add("length off by more", refusal),
        }
        if refusal == 0 {
            self.add_unread(call);
        }
    }

    /// Accepted requests by what stands in the plan past the scan count: 1 for
    /// a rising radius, 2 for a limit out of range, 3 for a scan that would do.
    fn add_unread(&mut self, call: &Call) {
        let scans = call.scans as usize;
        let (radius, limit) = (&call.radius, &call.limit);
        let rises = radius.get(scans).is_some_and(|next| *next > radius[scans - 1]);
        let too_wide = limit.get(scans).is_some_and(|next| !LIMIT.contains(next));
        let both = radius.len() > scans && limit.len() > scans;
        if rises {
            self.add("unread plan entry", 1);
        }
        if too_wide {
            self.add("unread plan entry", 2);
        }
        if both && !rises && !too_wide && radius[scans] > 0 {
            self.add("unread plan entry", 3);
        }
    }

    /// One line about the first floor that was missed.
    pub fn missed(&self, floors: &[Floor]) -> Option<String> {
        let short = |floor: &&Floor| self.of(floor.name, floor.number) < floor.scaled(self.count);
        floors.iter().find(short).map(|floor| {
            let (name, number) = (floor.name, floor.number);
            let (seen, least) = (self.of(name, number), floor.scaled(self.count));
            format!("floor missed: {name} {number} was seen {seen} times, at least {least} asked")
        })
    }
}

impl Display for Tally {
    fn fmt(&self, out: &mut Formatter) -> std::fmt::Result {
        let mut last = "";
        for ((name, number), seen) in &self.seen {
            if *name != last {
                let opening = if last.is_empty() { "" } else { "\n" };
                write!(out, "{opening}  {name}:")?;
                last = name;
            }
            match *name {
                name if UNNUMBERED.contains(&name) => write!(out, " {seen}")?,
                _ => write!(out, " {number}={seen}")?,
            }
        }
        writeln!(out)
    }
}
