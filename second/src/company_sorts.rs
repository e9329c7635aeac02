//! The sorts of stations and their neighbours that a run must not lose, by name and
//! number: who is set aside, how narrowly, and what other ways to do the buddy check would
//! say of the same survivors.

use crate::buddy::{agreeing, Neighbours};
use crate::buddy_sorts::{floors_of, Least};
use crate::call::Call;
use crate::scan::{correct, difference, smoothed, survivors, Accepted};
use crate::sorts::{named, Sort};
use crate::tally::Floor;
use crate::units::{BORDER, LEAST_NEIGHBOURS, MISSING, WEIGHT_SCALE};
use crate::verdicts::{before_first_scan, ACCEPTED};

const COUNT: &str = "station set aside by (two neighbours, three, four, more)";
const GROUP: &str = "station set aside (alone among its neighbours, with one of them, with more, \
    with all)";
const KEPT: &str = "station that differs by more than L (and has no neighbour, and has one)";
const EXACT: &str = "station with n·D from the sum by (n·L of two neighbours, of more, one past \
    n·L of two, of more)";
const SIDE: &str = "station set aside with n·D (above the sum, below it)";
const PLACE: &str = "station set aside (by others at its place alone, where all stand at one \
    place)";
const POST: &str = "post set aside (in the first scan, in a later one)";
pub const VERDICT: &str = "row near a station that would have another verdict if it counted, by \
    its own";
const OTHERWISE: &str = "station with another verdict (if one neighbour were enough, with three \
    asked for, with L once, with itself among its neighbours, with the mean cut, floored, \
    rounded, at n·L, with neighbours at B², in a square, by nearest places)";
const ORDER: &str = "stations with other verdicts (one after another, from the last on, again \
    until nobody goes, before the E test)";

const LEAST: [Least; 10] = [
    (COUNT, &[700, 170, 72, 84]),
    (GROUP, &[700, 59, 240, 200]),
    (KEPT, &[770, 950]),
    (EXACT, &[330, 45, 33, 53]),
    (SIDE, &[540, 680]),
    (PLACE, &[30, 3]),
    (POST, &[440, 255]),
    (VERDICT, &OF_VERDICTS),
    (OTHERWISE, &[950, 710, 450, 1_000, 80, 68, 78, 330, 42, 540, 620]),
    (ORDER, &[440, 295, 170, 320]),
];

/// From 1 to 5, from 11 to 16 and from 21 to 25: after the last scan nobody is judged.
const OF_VERDICTS: [u64; 25] = [
    40, 40, 39, 18, 26, 0, 0, 0, 0, 0, 240, 150, 140, 150, 147, 140, 0, 0, 0, 0, 105, 47, 40, 46,
    33,
];

/// The least of each in a full run, whatever its kind.
pub fn floors() -> Vec<Floor> {
    floors_of(&LEAST)
}

/// The most triples of a point, a station and a scan in a request that is gone through.
const MOST_TRIPLES: usize = 60_000;

pub fn is_looked_at(call: &Call) -> bool {
    call.first_guess.len() * call.x.len() * call.scans as usize <= MOST_TRIPLES
}

/// What a request with the check on has been found to have.
#[derive(Default)]
pub struct Found {
    count: [bool; 4],
    group: [bool; 4],
    kept: [bool; 2],
    exact: [bool; 4],
    side: [bool; 2],
    place: [bool; 2],
    post: [bool; 2],
    verdicts: [bool; 27],
    otherwise: [bool; 11],
    order: [bool; 4],
}

/// The stations of a scan as its check finds them.
struct Round<'a> {
    call: &'a Call,
    scan: usize,
    b2: i64,
    limit: i64,
    passed: &'a [Accepted],
    /// Whom the check sets aside, as the rows of those who passed.
    aside: Vec<bool>,
}

fn square(one: &Accepted, other: &Accepted) -> i64 {
    let (dx, dy) = one.offset(other.x, other.y);
    dx * dx + dy * dy
}

impl Round<'_> {
    /// Those of some stations that somebody takes for neighbours of one.
    fn of(
        &self,
        station: &Accepted,
        among: &[Accepted],
        near: impl Fn(&Accepted) -> bool,
    ) -> Neighbours {
        let others = among.iter().filter(|other| other.row != station.row && near(other));
        others.fold(Neighbours::default(), |all, other| Neighbours {
            count: all.count + 1,
            sum: all.sum + other.difference,
        })
    }

    fn near(&self, station: &Accepted, among: &[Accepted]) -> Neighbours {
        self.of(station, among, |other| square(station, other) < self.b2)
    }

    fn goes(&self, neighbours: Neighbours, difference: i64) -> bool {
        neighbours.set_aside(difference, self.limit as i32)
    }

    /// Whether stations go who are judged one after another, those gone left out.
    fn in_turn(&self, turn: impl Iterator<Item = usize>) -> Vec<bool> {
        let mut aside = vec![false; self.passed.len()];
        for at in turn {
            let station = &self.passed[at];
            let left: Vec<Accepted> = self.left(&aside);
            aside[at] = self.goes(self.near(station, &left), station.difference);
        }
        aside
    }

    fn left(&self, aside: &[bool]) -> Vec<Accepted> {
        let left = self.passed.iter().zip(aside).filter(|(_, aside)| !**aside);
        left.map(|(station, _)| *station).collect()
    }

    /// All at once, and all that are left again.
    fn again(&self) -> bool {
        let left = self.left(&self.aside);
        left.iter().any(|station| self.goes(self.near(station, &left), station.difference))
    }
}

impl Found {
    /// Goes through the scans.
    pub fn of(call: &Call) -> Self {
        let mut found = Found::default();
        let check = call.check().unwrap_or_default();
        let (mut grid, mut verdict) = (call.first_guess.clone(), before_first_scan(call, BORDER));
        let mut support = vec![0; grid.len()];
        for scan in 0..call.scans as usize {
            let before = verdict.clone();
            let passed = survivors(call, &grid, scan, &mut verdict);
            let judged = verdict.clone();
            let accepted = agreeing(call, scan, passed.clone(), &mut verdict);
            let aside = passed.iter().map(|one| verdict[one.row] != ACCEPTED).collect();
            let (b2, limit) = (i64::from(check.radius).pow(2), i64::from(check.limit));
            let round = Round { call, scan, b2, limit, passed: &passed, aside };
            found.round(&round);
            found.others(&round, &grid, &before, &judged);
            correct(call, scan, WEIGHT_SCALE, &accepted, &mut grid, &mut support);
            if call.smooth {
                grid = smoothed(call.shape(), &grid);
            }
        }
        found
    }

    fn round(&mut self, round: &Round) {
        for (station, aside) in round.passed.iter().zip(&round.aside) {
            let near = round.near(station, round.passed);
            self.narrowly(round, station, near);
            self.otherwise(round, station, near, *aside);
            if *aside {
                self.aside(round, station, near);
            }
        }
        let rows = round.passed.len();
        let in_turn = [round.in_turn(0..rows), round.in_turn((0..rows).rev())];
        self.order[0] |= in_turn[0] != round.aside;
        self.order[1] |= in_turn[1] != round.aside;
        self.order[2] |= round.again();
    }

    fn narrowly(&mut self, round: &Round, station: &Accepted, near: Neighbours) {
        let (count, apart) = (near.count as i64, near.apart(station.difference));
        let differs = |least: i64| apart > least;
        self.kept[0] |= near.count == 0 && station.difference.abs() > round.limit;
        self.kept[1] |= near.count == 1 && differs(round.limit);
        if near.count >= LEAST_NEIGHBOURS {
            let more = usize::from(near.count > LEAST_NEIGHBOURS);
            self.exact[more] |= apart == count * round.limit;
            self.exact[2 + more] |= apart == count * round.limit + 1;
        }
    }

    /// One that is set aside.
    fn aside(&mut self, round: &Round, station: &Accepted, near: Neighbours) {
        let call = round.call;
        self.count[(near.count - LEAST_NEIGHBOURS).min(3)] = true;
        let above = near.count as i64 * station.difference > near.sum;
        self.side[usize::from(!above)] = true;
        let gone = round.passed.iter().zip(&round.aside).filter(|(other, aside)| {
            **aside && other.row != station.row && square(station, other) < round.b2
        });
        let gone = gone.count();
        self.group[gone.min(2)] = true;
        self.group[3] |= gone == near.count;
        let here = round.of(station, round.passed, |other| square(station, other) == 0);
        self.place[0] |= here.count == near.count;
        self.place[1] |= here.count + 1 == call.x.len();
        if !call.shape().holds(station.x as i32, station.y as i32) {
            self.post[round.scan.min(1)] = true;
        }
    }

    /// What somebody would say of it who did the check otherwise.
    fn otherwise(&mut self, round: &Round, station: &Accepted, near: Neighbours, aside: bool) {
        let (d, limit) = (station.difference, round.limit);
        let (count, apart) = (near.count as i64, near.apart(d));
        let is_judged = near.count >= LEAST_NEIGHBOURS;
        let mean =
            |divide: fn(i64, i64) -> i64| is_judged && (d - divide(near.sum, count)).abs() > limit;
        let with =
            |near: &dyn Fn(&Accepted) -> bool| round.goes(round.of(station, round.passed, near), d);
        let shape = round.call.shape();
        let place = |one: &Accepted| {
            let (x, y) = shape.nearest(one.x as i32, one.y as i32);
            Accepted { x: x.into(), y: y.into(), ..*one }
        };
        let here = place(station);
        let side = round.b2.isqrt();
        let said = [
            count >= 1 && apart > count * limit,
            count >= 3 && apart > count * limit,
            is_judged && apart > limit,
            count >= 1 && apart > (count + 1) * limit,
            mean(|sum, count| sum / count),
            mean(i64::div_euclid),
            mean(crate::units::rounded),
            is_judged && apart >= count * limit,
            with(&|other| square(station, other) <= round.b2),
            with(&|other| (other.x - station.x).abs().max((other.y - station.y).abs()) < side),
            with(&|other| square(&here, &place(other)) < round.b2),
        ];
        self.otherwise.iter_mut().zip(said).for_each(|(found, said)| *found |= said != aside);
    }

    /// Rows near a station that do not count, and would change its verdict.
    fn others(&mut self, round: &Round, grid: &[i32], before: &[u8], judged: &[u8]) {
        let call = round.call;
        let rows = (0..judged.len()).filter(|row| judged[*row] != ACCEPTED);
        let others: Vec<Accepted> = rows
            .map(|row| {
                let missing = call.value[row] == MISSING;
                let d = if missing { 0 } else { difference(call, grid, row) };
                Accepted::new(call, row, d)
            })
            .collect();
        // Those whom this scan's limit rejects.
        let now = |other: &Accepted| before[other.row] == ACCEPTED;
        for (station, aside) in round.passed.iter().zip(&round.aside) {
            let near = round.near(station, round.passed);
            let with = |other: &Accepted| Neighbours {
                count: near.count + 1,
                sum: near.sum + other.difference,
            };
            let beside = others.iter().filter(|other| square(station, other) < round.b2);
            for other in beside {
                if round.goes(with(other), station.difference) != *aside {
                    self.verdicts[usize::from(judged[other.row])] = true;
                    self.order[3] |= now(other);
                }
            }
        }
    }

    pub fn sorts(self) -> Vec<Sort> {
        let verdicts = (0..).zip(self.verdicts).filter(|(_, found)| *found);
        let verdicts: Vec<Sort> = verdicts.map(|(number, _)| (VERDICT, number)).collect();
        [
            named(COUNT, self.count),
            named(GROUP, self.group),
            named(KEPT, self.kept),
            named(EXACT, self.exact),
            named(SIDE, self.side),
            named(PLACE, self.place),
            named(POST, self.post),
            verdicts,
            named(OTHERWISE, self.otherwise),
            named(ORDER, self.order),
        ]
        .concat()
    }
}
