//! The buddy check, item 7 of document 02: "A mast in a sunlit courtyard passes the E
//! test and still disagrees with everyone near."

use crate::call::Call;
use crate::scan::Accepted;
use crate::units::LEAST_NEIGHBOURS;
use crate::verdicts::SET_ASIDE;

/// The other survivors near a station: how many, and the sum of what they differ by.
#[derive(Clone, Copy, Debug, Default, PartialEq, Eq)]
pub struct Neighbours {
    pub count: usize,
    pub sum: i64,
}

impl Neighbours {
    /// Those "at distance below B", by true positions, wherever in the list they are.
    pub fn of(station: &Accepted, survivors: &[Accepted], radius: i32) -> Self {
        let b2 = i64::from(radius).pow(2);
        let mut neighbours = Neighbours::default();
        for other in survivors.iter().filter(|other| other.row != station.row) {
            let (dx, dy) = other.offset(station.x, station.y);
            if dx * dx + dy * dy < b2 {
                neighbours.count += 1;
                neighbours.sum += other.difference;
            }
        }
        neighbours
    }

    /// How far n·D is from the sum of the n neighbours' D.
    pub fn apart(&self, difference: i64) -> i64 {
        (self.count as i64 * difference - self.sum).abs()
    }

    /// "with at least two other survivors at distance below B ... if n·D differs from the
    /// sum of its n neighbours' D by more than n·L".
    pub fn set_aside(&self, difference: i64, limit: i32) -> bool {
        let most = self.count as i64 * i64::from(limit);
        self.count >= LEAST_NEIGHBOURS && self.apart(difference) > most
    }
}

/// The survivors of the E test that their neighbours agree with, and all of them where the
/// check is off. "All are judged against the same survivors, at once", and who is set
/// aside is so for good. `scan` counts from 0.
pub fn agreeing(
    call: &Call,
    scan: usize,
    survivors: Vec<Accepted>,
    verdict: &mut [u8],
) -> Vec<Accepted> {
    let Some(check) = call.check() else {
        return survivors;
    };
    let agrees = |station: &Accepted| {
        let neighbours = Neighbours::of(station, &survivors, check.radius);
        !neighbours.set_aside(station.difference, check.limit)
    };
    let (kept, others): (Vec<Accepted>, Vec<Accepted>) =
        survivors.iter().copied().partition(agrees);
    others.iter().for_each(|station| verdict[station.row] = SET_ASIDE + 1 + scan as u8);
    kept
}
