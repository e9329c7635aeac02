//! The generator of winds: the mode, whether the wind columns are given, and how
//! each station's wind lies to its offset from a point.

use crate::call::{Call, Window, Winds};
use crate::generate_rims::add_silent;
use crate::rng::Rng;
use crate::units::{ALONG_WIND, MISSING, RADIUS, ROUND, STEP, WIND};

/// What a request has for winds.
enum Given {
    LeftOut,
    /// Columns of marks.
    Missing,
    Blown,
}

/// What a wind is to be.
#[derive(Clone, Copy)]
enum Blows {
    NotAtAll,
    Calm,
    AlongX,
    AlongY,
    /// Along the offset from a point, which stretches the most.
    Parallel,
    /// At right angles to it, which does not stretch.
    Across,
    /// With one of its numbers or both as great as may be.
    Strongest,
    Gentle,
    Any,
}

const ALL: [Blows; 12] = [
    Blows::NotAtAll,
    Blows::Calm,
    Blows::AlongX,
    Blows::AlongY,
    Blows::Parallel,
    Blows::Parallel,
    Blows::Across,
    Blows::Strongest,
    Blows::Strongest,
    Blows::Gentle,
    Blows::Any,
    Blows::Any,
];

/// From about here on strong winds make products that outgrow 64 bits. Such radii
/// are rare, and so they have mode 1 and winds more often.
const WIDE: i32 = 512;
/// The greatest number of a wind.
const MOST: i32 = *WIND.end();

/// Gives a request its mode and winds, which are to blow round the points of a part
/// of the grid. Over a third stay with the round weight and have no wind at all.
/// Some of mode 1 have a station more, which is heard by its wind alone. Whatever
/// else is drawn for the request stays.
pub fn blow(rng: &Rng, call: &mut Call, part: &Window) {
    let rng = &mut rng.beside();
    let is_wide = call.radius.first().is_some_and(|radius| *radius >= WIDE);
    let turn = rng.below(24).max(if is_wide { rng.below(24) } else { 0 });
    let (mode, given) = match turn {
        0..=7 => (ROUND, Given::LeftOut),
        8 | 9 => (ROUND, Given::Missing),
        10..=12 => (ROUND, Given::Blown),
        13 => (ALONG_WIND, Given::LeftOut),
        14 => (ALONG_WIND, Given::Missing),
        _ => (ALONG_WIND, Given::Blown),
    };
    if mode == ALONG_WIND && rng.one_in(4) {
        let rows = call.x.len();
        add_silent(rng, call, part);
        call.verdict_len += call.x.len() - rows;
    }
    call.mode = mode;
    call.winds = match given {
        Given::LeftOut => None,
        Given::Missing => Some(Winds::missing(call.x.len())),
        Given::Blown => Some(blown(rng, call, part)),
    };
}

/// Winds of all sorts, or in a third of the requests of one sort.
fn blown(rng: &mut Rng, call: &Call, part: &Window) -> Winds {
    let only = rng.pick(&ALL);
    let alike = rng.one_in(3);
    let mut winds = Winds::default();
    for row in 0..call.x.len() {
        let any = rng.pick(&ALL);
        winds.push(wind(rng, call, part, row, if alike { only } else { any }));
    }
    winds
}

fn wind(rng: &mut Rng, call: &Call, part: &Window, row: usize, blows: Blows) -> (i32, i32) {
    let any = (rng.between(-MOST, MOST), rng.between(-MOST, MOST));
    let full = rng.pick(&[-MOST, MOST]);
    match blows {
        Blows::NotAtAll => (MISSING, MISSING),
        Blows::Calm => (0, 0),
        Blows::AlongX => (any.0, 0),
        Blows::AlongY => (0, any.1),
        Blows::Parallel => offset(rng, call, part, row).unwrap_or(any),
        Blows::Across => offset(rng, call, part, row).map_or(any, |(u, v)| (-v, u)),
        Blows::Strongest => {
            let other = rng.pick(&[-MOST, MOST]);
            rng.pick(&[(full, other), (full, other), (full, any.1), (any.0, full)])
        }
        Blows::Gentle => (rng.between(-3, 3), rng.between(-3, 3)),
        Blows::Any => any,
    }
}

/// A wind along the offset of a station from a point of a part of the grid,
/// inside whose radius it is; of a few points, the first to which there is one.
fn offset(rng: &mut Rng, call: &Call, part: &Window, row: usize) -> Option<(i32, i32)> {
    let radius = call.radius.first().copied().unwrap_or(1).clamp(*RADIUS.start(), *RADIUS.end());
    let steps = (radius + 63) / 64;
    let (x, y) = (i64::from(call.x[row]), i64::from(call.y[row]));
    (0..8).find_map(|_| {
        let mut near = |position: i64, low: u32, high: u32| {
            let at = position / STEP + i64::from(rng.between(-steps, steps));
            STEP * at.clamp(low.into(), high.into())
        };
        let (dx, dy) = (x - near(x, part.left, part.right), y - near(y, part.top, part.bottom));
        // A position may be any i32 here: its square is formed only where it is near.
        let far = dx.abs().max(dy.abs()) >= i64::from(radius);
        if far || dx * dx + dy * dy >= i64::from(radius).pow(2) {
            return None;
        }
        let (u, v) = reduced(dx as i32, dy as i32)?;
        let most = MOST.checked_div(u.abs().max(v.abs())).filter(|times| *times > 0)?;
        let times = rng.between(1, most) * rng.pick(&[-1, 1]);
        Some((times * u, times * v))
    })
}

/// The shortest offset of the same direction; no offset has none.
fn reduced(dx: i32, dy: i32) -> Option<(i32, i32)> {
    let (mut divisor, mut rest) = (dx.abs(), dy.abs());
    while rest != 0 {
        (divisor, rest) = (rest, divisor % rest);
    }
    Some((dx.checked_div(divisor)?, dy.checked_div(divisor)?))
}

#[cfg(test)]
mod tests {
    use super::*;

    #[test]
    fn directions_are_reduced() {
        assert_eq!(reduced(0, 0), None);
        assert_eq!(reduced(64, 0), Some((1, 0)));
        assert_eq!(reduced(0, -65), Some((0, -1)));
        assert_eq!(reduced(-96, 64), Some((-3, 2)));
        assert_eq!(reduced(7, 101), Some((7, 101)));
    }
}
