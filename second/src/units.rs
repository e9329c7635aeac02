//! Units, sizes and marks of the paper, and its one rounding rule.

use std::ops::RangeInclusive;

/// The lowest i32 marks a missing observation and, twice in a row, a missing wind.
pub const MISSING: i32 = i32::MIN;
/// This `until` means that the service has no end.
pub const NO_END: u32 = u32::MAX;
/// Position units between neighbouring grid points.
pub const STEP: i64 = 64;
/// A station off the grid by at most this on each axis takes part: a post.
pub const BORDER: i64 = 256;
/// Shares of a cell's four corners add up to this.
pub const CELL: i64 = STEP * STEP;
/// An interpolation sum over this gives whole units: 4096ths of 1/64 unit.
pub const READING_DIVISOR: f64 = 262_144.0;
/// Values are whole numbers of one over this.
pub const UNIT: f64 = 64.0;
/// Weights are whole ten-thousandths.
pub const WEIGHT_SCALE: i64 = 10_000;
/// What they were in before request 3, to tell requests apart by.
pub const HUNDREDTHS: i64 = 100;

pub const SIDE: RangeInclusive<u32> = 2..=64;
pub const VALUE: RangeInclusive<i32> = -1_000_000..=1_000_000;
/// What every accepted run stays within, at every point.
pub const FIELD: RangeInclusive<i32> = -13_000_000..=13_000_000;
pub const POSITION: RangeInclusive<i32> = -1_000_000..=1_000_000;
pub const SCANS: RangeInclusive<u32> = 1..=6;
pub const RADIUS: RangeInclusive<i32> = 1..=1024;
pub const LIMIT: RangeInclusive<i32> = 0..=2_000_000;
/// Of the buddy check, B: how near a neighbour is.
pub const BUDDY_RADIUS: RangeInclusive<i32> = 1..=512;
/// L: by how much a station may differ from the mean of its neighbours.
pub const BUDDY_LIMIT: RangeInclusive<i32> = 0..=2_000_000;
/// A station with fewer neighbours than this is not judged by them.
pub const LEAST_NEIGHBOURS: usize = 2;
/// The place of refusal 6 where the buddy check is at fault and no scan is.
pub const OF_THE_CHECK: usize = 6;
/// Each of a wind's two numbers, where it is not missing.
pub const WIND: RangeInclusive<i32> = -100..=100;
/// Mode 0: the round weight.
pub const ROUND: u32 = 0;
/// Mode 1: the weight that is stretched along the wind.
pub const ALONG_WIND: u32 = 1;
pub const MODES: RangeInclusive<u32> = ROUND..=ALONG_WIND;
/// Rule 1: a lone station moves a point as the equations have it, by all of D.
pub const EQUATIONS: u32 = 1;
/// Rule 2: it does so as the listings have it, by its weight's part of D.
pub const LISTINGS: u32 = 2;
pub const RULES: RangeInclusive<u32> = EQUATIONS..=LISTINGS;
/// The rule where a request leaves it out.
pub const DEFAULT_RULE: u32 = EQUATIONS;
pub const MOST_STATIONS: usize = 512;
/// The most windows of a screen.
pub const MOST_WINDOWS: usize = 16;

/// The greatest age where a request text leaves its line out.
pub const DEFAULT_AGE: u32 = 120;
/// The longest request text, in bytes.
pub const MOST_TEXT: usize = 65_536;

/// The quotient to the nearest whole number, halves away from zero.
/// Every divisor of the paper is above 0.
pub fn rounded(dividend: i64, divisor: i64) -> i64 {
    let size = (2 * dividend.abs() + divisor) / (2 * divisor);
    if dividend < 0 {
        -size
    } else {
        size
    }
}
