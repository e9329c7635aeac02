//! Cases (a) to (i) of the paper, and the rules of one scan around them.

use crate::{changed, lone_station, sample, ANSWER, REQUEST};
use second::call::{Analysis, Call};
use second::field::Shape;
use second::reading::{reading, Reading};
use second::scan::{smoothed, weight, weight_in};
use second::scheme::{analyse, run_in};
use second::text::answer;
use second::units::{rounded, CELL, HUNDREDTHS};
use second::window::reach;

fn accepted(call: &Call) -> Analysis {
    analyse(call).expect("accepted")
}

#[test]
fn a_and_b_weights() {
    assert_eq!([0, 4096, 8192].map(|d2| weight(96 * 96, d2)), [10_000, 3_846, 588]);
    assert_eq!([3969, 4014, 4015, 4096].map(|d2| weight(64 * 64, d2)), [157, 101, 99, 0]);
    assert_eq!(weight(64 * 64, 2_020_000_000_000), 0);
}

/// The table of document 01 as it stood, so that the run on that scale is the
/// old one.
#[test]
fn a_b_and_i_in_hundredths() {
    let weights = |r2, d2: [i64; 4]| d2.map(|d2| weight_in(HUNDREDTHS, r2, d2));
    assert_eq!(weights(96 * 96, [0, 4096, 8192, 9216]), [100, 38, 5, 0]);
    assert_eq!(weights(64 * 64, [3969, 4014, 4015, 4096]), [1, 1, 0, 0]);
    let old = run_in(&sample(), HUNDREDTHS);
    assert_eq!(old.grid, [585, 672, 768, 672, 759, 768, 768, 768, 768]);
    assert_eq!((old.support, old.verdict), (vec![1; 9], vec![0, 0, 2]));
}

#[test]
fn c_rounding() {
    assert_eq!([(5, 2), (-5, 2), (1, 3)].map(|(n, d)| rounded(n, d)), [3, -3, 0]);
    assert_eq!(
        [(0, 7), (-1, 3), (-2, 3), (7, 2), (6, 4)].map(|(n, d)| rounded(n, d)),
        [0, 0, -1, 4, 2]
    );
}

#[test]
fn d_smoothing() {
    let shape = Shape { nx: 3, ny: 3 };
    for (lone, after) in [(16, 4), (2, 1), (-2, -1)] {
        let mut field = [0; 9];
        field[4] = lone;
        assert_eq!(smoothed(shape, &field)[4], after);
    }
    let field: Vec<i32> = (1..=9).map(|n| n * n * n).collect();
    let smooth = smoothed(shape, &field);
    let sum = (1 + 27 + 343 + 729) + 2 * (8 + 64 + 216 + 512) + 4 * 125;
    assert_eq!(i64::from(smooth[4]), rounded(sum, 16));
    assert_eq!((&smooth[..4], &smooth[5..]), (&field[..4], &field[5..]));
    let flat = [5, -7, 9, 1, 2, 3];
    assert_eq!(smoothed(Shape { nx: 2, ny: 3 }, &flat), flat, "two columns are all border");
}

#[test]
fn e_interpolation() {
    let shape = Shape { nx: 2, ny: 2 };
    assert_eq!(rounded(shape.interpolation_sum(&[0, 1, 0, 0], 32, 32), CELL), 0);
    assert_eq!(reading(2, 2, &[0, 1, 0, 0], &[1; 4], 32, 32), Reading::Backed(1.0 / 256.0));
}

#[test]
fn f_limit() {
    for (value, verdict) in [(840, 0), (841, 11), (440, 0), (439, 11)] {
        let call = lone_station(3, 3, 640, 64, 64, value);
        assert_eq!(accepted(&call).verdict, [verdict], "value {value}");
    }
    let mut call = lone_station(3, 3, 640, 64, 64, 640);
    call.limit = vec![0];
    assert_eq!(accepted(&call).support[4], 1, "E = 0 keeps D = 0, and it supports");
}

#[test]
fn g_no_stations() {
    let mut call = sample();
    for column in [&mut call.x, &mut call.y, &mut call.value] {
        column.clear();
    }
    for column in [&mut call.observed, &mut call.from, &mut call.until] {
        column.clear();
    }
    call.verdict_len = 0;
    let analysis = accepted(&call);
    assert_eq!((analysis.grid, analysis.support), (call.first_guess, vec![0; 9]));
}

#[test]
fn h_reach() {
    let call = changed(|call| {
        (call.scans, call.radius, call.limit) = (2, vec![96, 64, 900], vec![5, 5, 5]);
        call.smooth = true;
    });
    assert_eq!(reach(&call), 5);
    assert_eq!(reach(&Call { smooth: false, ..call }), 3);
}

#[test]
fn i_request() {
    assert_eq!(answer(REQUEST.as_bytes()), ANSWER.as_bytes());
}

#[test]
fn verdicts_come_in_order() {
    let verdict = |change: fn(&mut Call)| {
        let mut call = lone_station(3, 3, 640, 64, 64, 700);
        change(&mut call);
        accepted(&call).verdict[0]
    };
    assert_eq!(verdict(|call| (call.value[0], call.until[0]) = (i32::MIN, 5)), 1);
    assert_eq!(verdict(|call| (call.until[0], call.observed[0]) = (1001, 1001)), 2, "2 before 3");
    assert_eq!(verdict(|call| call.until[0] = 1000), 2, "T is not below until");
    assert_eq!(verdict(|call| call.until[0] = 1001), 0);
    assert_eq!(verdict(|call| call.from[0] = 1000), 0);
    assert_eq!(verdict(|call| (call.from[0], call.observed[0]) = (990, 989)), 2);
    assert_eq!(verdict(|call| call.from[0] = 1001), 2);
    assert_eq!(verdict(|call| call.observed[0] = 1001), 3);
    assert_eq!(verdict(|call| (call.observed[0], call.x[0]) = (939, -257)), 4, "4 before 5");
    assert_eq!(verdict(|call| call.observed[0] = 940), 0);
    assert_eq!(verdict(|call| call.x[0] = -257), 5);
    assert_eq!(verdict(|call| call.y[0] = 128 + 257), 5);
    assert_eq!(verdict(|call| (call.x[0], call.y[0]) = (128, 128)), 0);
    assert_eq!(verdict(|call| (call.time, call.observed[0]) = (u32::MAX, u32::MAX)), 0, "no end");
    assert_eq!(verdict(|call| call.value[0] = 32_767), 11, "32767 is a proper value");
}

#[test]
fn last_cell_serves_the_last_column_and_row() {
    let mut call = lone_station(2, 3, 0, 64, 128, 100);
    call.first_guess = vec![0, 0, 0, 0, 0, 90];
    (call.radius, call.limit) = (vec![64], vec![10]);
    let analysis = accepted(&call);
    assert_eq!((analysis.verdict, analysis.grid[5]), (vec![0], 100));
}

#[test]
fn a_rejected_station_never_returns() {
    // The first row goes in scan 1; the second brings the field up to it.
    let mut call = lone_station(2, 2, 0, 0, 0, 100);
    call.x.push(0);
    call.y.push(0);
    call.value.push(90);
    call.observed.push(1000);
    call.from.push(0);
    call.until.push(u32::MAX);
    (call.scans, call.radius, call.limit) = (2, vec![64, 64], vec![95, 95]);
    call.fit_results();
    let analysis = accepted(&call);
    assert_eq!(analysis.verdict, [11, 0]);
    assert_eq!((analysis.grid, analysis.support), (vec![90, 0, 0, 0], vec![3, 0, 0, 0]));
}

#[test]
fn smoothing_moves_points_without_support() {
    let mut call = lone_station(3, 3, 0, 0, 0, 160);
    (call.radius, call.smooth) = (vec![64], true);
    let analysis = accepted(&call);
    assert_eq!(analysis.grid, [160, 0, 0, 0, 10, 0, 0, 0, 0]);
    assert_eq!(analysis.support, [1, 0, 0, 0, 0, 0, 0, 0, 0]);
}
