//! Every refusal number, its place, and its order against its neighbours.

use crate::{changed, sample};
use second::call::{Call, Refusal, Window, Winds};
use second::scheme::analyse;
use second::window::window;

fn refused(change: impl FnOnce(&mut Call)) -> (u32, u32) {
    match analyse(&changed(change)) {
        Ok(_) => (0, 0),
        Err(refusal) => (refusal.number, refusal.place),
    }
}

/// A window query on case (i), with results as long as the window asks.
fn window_refused(ends: [u32; 4], change: impl FnOnce(&mut Call)) -> (u32, u32) {
    let mut call = sample();
    (call.grid_len, call.support_len) = (4, 4);
    change(&mut call);
    match window(&call, &Window::new(ends[0], ends[1], ends[2], ends[3])) {
        Ok(_) => (0, 0),
        Err(refusal) => (refusal.number, refusal.place),
    }
}

#[test]
fn the_sample_is_accepted() {
    assert_eq!(refused(|_| ()), (0, 0));
    assert_eq!(Refusal::new(7, 4095).code(), 7 * 65_536 + 4095);
}

#[test]
fn one_is_the_shape() {
    for side in [0, 1, 65, u32::MAX] {
        assert_eq!(refused(|call| call.nx = side), (1, 0));
        assert_eq!(refused(|call| call.ny = side), (1, 0));
    }
    assert_eq!(refused(|call| call.first_guess.push(0)), (1, 0));
    assert_eq!(refused(|call| (call.nx, call.grid_len) = (2, 5)), (1, 0), "1 before 3");
    for (nx, ny) in [(65, 2), (2, 65), (1, 9), (9, 1)] {
        let points = (nx * ny) as usize;
        let change = |call: &mut Call| {
            (call.nx, call.ny, call.first_guess) = (nx, ny, vec![0; points]);
            (call.grid_len, call.support_len) = (points, points);
        };
        assert_eq!(refused(change), (1, 0), "{nx} by {ny}, all lengths fitting");
    }
}

#[test]
fn two_is_the_window() {
    assert_eq!(window_refused([1, 2, 1, 2], |_| ()), (0, 0));
    let past = u32::MAX;
    for ends in [[2, 1, 1, 2], [1, 2, 2, 1], [1, 3, 1, 2], [1, 2, 1, 3], [past; 4], [0, past, 0, 1]]
    {
        assert_eq!(window_refused(ends, |_| ()), (2, 0), "{ends:?}");
    }
    assert_eq!(window_refused([2, 1, 1, 2], |call| call.ny = 4), (1, 0), "1 before 2");
    assert_eq!(window_refused([2, 1, 1, 2], |call| call.grid_len = 5), (2, 0), "2 before 3");
}

#[test]
fn three_is_a_result_length() {
    assert_eq!(refused(|call| call.grid_len = 8), (3, 0));
    assert_eq!(refused(|call| call.support_len = 10), (3, 0));
    assert_eq!(refused(|call| call.verdict_len = 2), (3, 0));
    assert_eq!(refused(|call| call.verdict_len = 4), (3, 0));
    assert_eq!(refused(|call| call.x.push(0)), (3, 0), "3 before 4, measured against x");
    assert_eq!(window_refused([1, 2, 1, 2], |call| call.grid_len = 3), (3, 0));
    assert_eq!(window_refused([1, 2, 1, 2], |call| call.support_len = 9), (3, 0));
    assert_eq!(window_refused([1, 2, 1, 2], |call| call.verdict_len = 9), (0, 0), "no verdicts");
}

#[test]
fn four_is_the_columns() {
    assert_eq!(refused(|call| (call.x.push(0), call.verdict_len += 1).1), (4, 0));
    assert_eq!(refused(|call| call.y.truncate(2)), (4, 0));
    assert_eq!(refused(|call| call.value.push(0)), (4, 0));
    assert_eq!(refused(|call| call.observed.push(0)), (4, 0));
    assert_eq!(refused(|call| call.from.truncate(0)), (4, 0));
    assert_eq!(refused(|call| (call.until.push(0), call.scans = 0).1), (4, 0), "4 before 5");
    let rows = |count: usize| {
        move |call: &mut Call| {
            (call.x, call.y, call.value) = (vec![0; count], vec![0; count], vec![600; count]);
            (call.observed, call.from, call.until) =
                (vec![990; count], vec![0; count], vec![2000; count]);
            call.verdict_len = count;
        }
    };
    assert_eq!(refused(rows(512)), (0, 0));
    assert_eq!(refused(rows(513)), (4, 0));
}

#[test]
fn five_is_the_scan_count() {
    for scans in [0, 7, u32::MAX] {
        assert_eq!(refused(|call| call.scans = scans), (5, 0));
    }
    let long = |call: &mut Call| (call.radius, call.limit) = (vec![64; 7], vec![9; 7]);
    assert_eq!(refused(|call| (long(call), call.scans = 6).1), (0, 0));
    assert_eq!(refused(|call| (long(call), call.scans = 7).1), (5, 0));
    assert_eq!(refused(|call| call.scans = 2), (5, 0), "both columns are shorter");
    assert_eq!(refused(|call| (call.scans, call.radius) = (2, vec![0, 9])), (5, 0), "5 before 6");
    assert_eq!(refused(|call| (call.scans, call.limit) = (2, vec![9, 9])), (5, 0));
}

#[test]
fn six_is_the_plan() {
    let plan = |radius: &[i32], limit: &[i32]| {
        let scans = radius.len() as u32;
        refused(|call| (call.scans, call.radius, call.limit) = (scans, radius.into(), limit.into()))
    };
    for radius in [0, -1, 1025, i32::MIN, i32::MAX] {
        assert_eq!(plan(&[radius], &[5]), (6, 0));
    }
    assert_eq!(plan(&[1024, 1024, 1], &[0, 2_000_000, 0]), (0, 0));
    assert_eq!(plan(&[64, 65], &[5, 5]), (6, 1));
    assert_eq!(plan(&[64, 32, 33], &[5, 5, -1]), (6, 2));
    assert_eq!(plan(&[64, 64, 64, 65], &[5, 2_000_001, 5, 5]), (6, 1));
    assert_eq!(refused(|call| (call.radius.push(0), call.limit.push(-1)).1), (0, 0), "not read");
    assert_eq!(refused(|call| (call.radius[0], call.first_guess[0]) = (0, i32::MAX)), (6, 0));
}

#[test]
fn seven_is_the_first_guess() {
    for value in [1_000_001, -1_000_001, i32::MIN, i32::MAX] {
        assert_eq!(refused(|call| call.first_guess[5] = value), (7, 5));
    }
    assert_eq!(refused(|call| call.first_guess[8] = -1_000_000), (0, 0));
    let both = |call: &mut Call| (call.first_guess[7], call.x[0]) = (1_000_001, 1_000_001);
    assert_eq!(refused(both), (7, 7), "7 before 8");
    assert_eq!(window_refused([0, 1, 0, 1], |call| call.first_guess[8] = i32::MIN), (7, 8));
}

#[test]
fn eight_is_a_row_with_all_its_tests() {
    for value in [1_000_001, -1_000_001, i32::MIN + 1, i32::MAX] {
        assert_eq!(refused(|call| call.value[1] = value), (8, 1));
    }
    for position in [1_000_001, -1_000_001, i32::MIN, i32::MAX] {
        assert_eq!(refused(|call| call.x[2] = position), (8, 2));
        assert_eq!(refused(|call| call.y[0] = position), (8, 0));
    }
    assert_eq!(refused(|call| (call.x[0], call.y[0]) = (-1_000_000, 1_000_000)), (0, 0));
    for service in [(5, 5), (6, 5), (0, 0), (u32::MAX, u32::MAX)] {
        assert_eq!(refused(|call| (call.from[2], call.until[2]) = service), (8, 2));
    }
    assert_eq!(refused(|call| (call.from[1], call.until[1]) = (u32::MAX - 1, u32::MAX)), (0, 0));
    let rows = |call: &mut Call| (call.from[1], call.value[2]) = (u32::MAX, i32::MAX);
    assert_eq!(refused(rows), (8, 1), "row by row, never column by column");
    let missing = |call: &mut Call| (call.value[1], call.y[1]) = (i32::MIN, 2_000_000);
    assert_eq!(refused(missing), (8, 1), "a missing row is tested like any other");
    assert_eq!(window_refused([0, 1, 0, 1], |call| call.until[2] = 0), (8, 2), "outside the cut");
}

/// Winds in which no row is at fault: at the bounds, calm and missing.
fn blow(call: &mut Call) -> &mut Winds {
    call.winds.insert(Winds { u: vec![-100, 0, i32::MIN], v: vec![100, 0, i32::MIN] })
}

#[test]
fn both_wind_columns_count_in_four() {
    assert_eq!(refused(|call| blow(call).u[0] = 100), (0, 0));
    for column in 0..2 {
        for length in [0, 2, 4, 513] {
            let change = |call: &mut Call| blow(call).columns_mut()[column].resize(length, 0);
            assert_eq!(refused(change), (4, 0), "column {column} of {length}");
            assert_eq!(refused(|call| (change(call), call.mode = 2).1), (4, 0), "4 before 5");
        }
    }
    assert_eq!(refused(|call| call.winds = Some(Winds::default())), (4, 0), "given, and empty");
    assert_eq!(refused(|call| call.winds = Some(Winds::missing(4))), (4, 0));
    assert_eq!(refused(|call| call.winds = None), (0, 0), "left out");
}

#[test]
fn five_is_the_mode_too() {
    assert_eq!(refused(|call| call.mode = 1), (0, 0));
    for mode in [2, 3, 256, 257, 65_536, 1 << 31, u32::MAX] {
        assert_eq!(refused(|call| call.mode = mode), (5, 0));
        assert_eq!(refused(|call| (call.mode, call.radius[0]) = (mode, 0)), (5, 0), "5 before 6");
        assert_eq!(refused(|call| (call.mode, call.scans) = (mode, 7)), (5, 0));
        assert_eq!(window_refused([0, 1, 0, 1], |call| call.mode = mode), (5, 0));
    }
    let late = |call: &mut Call| (call.mode, call.x[0], blow(call).u[2]) = (2, i32::MIN, 5);
    assert_eq!(refused(late), (5, 0), "5 before 8");
}

#[test]
fn eight_is_a_wind_too() {
    for mode in [0, 1] {
        for (u, v) in [
            (101, 0),
            (-101, 0),
            (0, 101),
            (0, -101),
            (i32::MAX, 0),
            (0, i32::MIN + 1),
            (i32::MIN, 0),
            (0, i32::MIN),
            (i32::MIN, 100),
            (i32::MIN, 101),
        ] {
            let change = |row: usize| {
                move |call: &mut Call| {
                    call.mode = mode;
                    let winds = blow(call);
                    (winds.u[row], winds.v[row]) = (u, v);
                }
            };
            for row in 0..3 {
                assert_eq!(refused(change(row)), (8, row as u32), "{u},{v} in mode {mode}");
            }
            assert_eq!(window_refused([0, 1, 0, 1], change(2)), (8, 2));
            let before = |call: &mut Call| (change(2)(call), call.until[1] = 0).1;
            assert_eq!(refused(before), (8, 1), "row by row");
            let after = |call: &mut Call| (change(1)(call), call.until[2] = 0).1;
            assert_eq!(refused(after), (8, 1), "row by row");
            let guess = |call: &mut Call| (change(0)(call), call.first_guess[8] = i32::MIN).1;
            assert_eq!(refused(guess), (7, 8), "7 before 8");
        }
    }
}
