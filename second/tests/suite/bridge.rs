//! The bridge itself, built for this processor around a stub of the archive.

use second::bridge::{Bridge, Empty};
use second::call::{Buddy, Call, Query, Screen, Window, Winds};
use second::compare::{Answer, Results, Subject};
use std::process::Command;
use std::sync::OnceLock;

const PROGRAM: &str = concat!(env!("CARGO_TARGET_TMPDIR"), "/bridge");

fn start(empty: Empty) -> Bridge {
    static BUILT: OnceLock<()> = OnceLock::new();
    BUILT.get_or_init(|| {
        let flags = ["-std=c11", "-Wall", "-Wextra", "-Werror", "-I../include", "-o", PROGRAM];
        let sources = ["bridge/bridge.c", "tests/suite/stub.c"];
        let status = Command::new("cc").args(flags).args(sources).status();
        assert!(status.expect("a C compiler").success());
    });
    Bridge::start(PROGRAM, empty).expect("it starts")
}

/// A call in which no two things are alike.
fn call(time: u32) -> Call {
    Call {
        nx: 101,
        ny: 102,
        first_guess: vec![-201, 0, 301],
        x: vec![-202, 0, 0, 302],
        y: vec![-203, 0, 0, 0, 303],
        value: vec![i32::MIN, 0, 0, 0, 0, 304],
        observed: vec![205, 0, 0, 0, 0, 0, 305],
        from: vec![206, 0, 0, 0, 0, 0, 0, 306],
        until: vec![207, 0, 0, 0, 0, 0, 0, 0, u32::MAX],
        winds: Some(Winds { u: vec![-210, -310], v: vec![211, 0, 311] }),
        scans: 103,
        radius: vec![208, 308],
        limit: vec![209],
        smooth: true,
        mode: 105,
        rule: Some(110),
        buddy: Some(Buddy::on(-113, 114)),
        time,
        age: 104,
        ..Call::default()
    }
}

fn answer(bridge: &Bridge, time: u32) -> (Answer<u32>, Vec<i32>, Vec<u8>, Vec<u8>) {
    let (mut grid, mut support, mut verdict) = (vec![5; 51], vec![5; 3], vec![5; 2]);
    let results = Results { grid: &mut grid, support: &mut support, verdict: &mut verdict };
    (bridge.analyse(&call(time), results), grid, support, verdict)
}

fn window_answer(bridge: &Bridge, time: u32) -> (Answer<u32>, Vec<i32>, Vec<u8>) {
    let (mut grid, mut support) = (vec![5; 51], vec![5; 3]);
    let results = Results { grid: &mut grid, support: &mut support, verdict: &mut [] };
    (bridge.window(&call(time), &Window::new(105, 106, 107, u32::MAX), results), grid, support)
}

/// Columns of ends of which no two are alike.
fn screen() -> Screen {
    Screen {
        left: vec![105],
        right: vec![106, 111],
        top: vec![107, 0, 112],
        bottom: vec![108, 0, 0, u32::MAX],
    }
}

fn windows_answer(bridge: &Bridge, time: u32) -> (Answer<u32>, Vec<i32>, Vec<u8>) {
    let (mut grid, mut support) = (vec![5; 61], vec![5; 3]);
    let results = Results { grid: &mut grid, support: &mut support, verdict: &mut [] };
    (bridge.windows(&call(time), &screen(), results), grid, support)
}

/// What the stub says of a call's plain numbers and columns.
fn assert_told(grid: &[i32]) {
    assert_eq!(grid[..11], [101, 102, 103, 1, 105, 110, 1, -113, 114, 0, 104]);
    assert_eq!(grid[11..23], [3, -201, 301, 4, -202, 302, 5, -203, 303, 6, i32::MIN, 304]);
    assert_eq!(grid[23..32], [7, 205, 305, 8, 206, 306, 9, 207, -1]);
    assert_eq!(grid[32..38], [2, -210, -310, 3, 211, 311]);
    assert_eq!(grid[38..44], [2, 208, 308, 1, 209, 209]);
}

#[test]
fn every_argument_and_result_crosses_the_bridge() {
    let (code, grid, support, verdict) = answer(&start(Empty::Null), 0);
    assert_eq!((code, support, verdict), (Ok(0), vec![1; 3], vec![2; 2]));
    assert_told(&grid);
    assert_eq!(grid[44..47], [51, 3, 2], "the lengths of the results");
    let untouched = i32::from_ne_bytes([0xA5; 4]);
    assert_eq!(grid[47..], [untouched; 4], "as they were before the call");
}

#[test]
fn a_window_query_crosses_the_bridge() {
    let (code, grid, support) = window_answer(&start(Empty::Null), 0);
    assert_eq!((code, support), (Ok(0), vec![1; 3]));
    assert_told(&grid);
    assert_eq!(grid[44..46], [51, 3], "the lengths of the results");
    assert_eq!(grid[47..], [105, 106, 107, -1], "the ends");
}

#[test]
fn a_screen_crosses_the_bridge() {
    let (code, grid, support) = windows_answer(&start(Empty::Null), 0);
    assert_eq!((code, support), (Ok(0), vec![1; 3]));
    assert_told(&grid);
    assert_eq!(grid[44..46], [61, 3], "the lengths of the results");
    let ends = [1, 105, 105, 2, 106, 111, 3, 107, 112, 4, 108, -1];
    assert_eq!(grid[49..], ends, "the length, the first and the last of each column of ends");
}

/// The lengths of the wind columns and their first numbers, as the archive gets
/// them, and how many of its addresses are null.
fn winds_of(empty: Empty, winds: Option<Winds>) -> (Answer<u32>, [i32; 4]) {
    let mut grid = vec![5; 51];
    let results = Results { grid: &mut grid, support: &mut [0], verdict: &mut [0] };
    let code = start(empty).analyse(&Call { winds, ..call(0) }, results);
    (code, [grid[32], grid[35], grid[33], grid[36]])
}

/// What the stub says of a call by each of the three functions.
fn told_by_each(bridge: &Bridge, call: &Call) -> [Vec<i32>; 3] {
    let mut grids = [vec![5; 51], vec![5; 51], vec![5; 61]];
    let [whole, window, windows] = &mut grids;
    let results = |grid| Results { grid, support: &mut [], verdict: &mut [] };
    let codes = [
        bridge.analyse(call, results(whole)),
        bridge.window(call, &Window::new(1, 2, 3, 4), results(window)),
        bridge.windows(call, &screen(), results(windows)),
    ];
    assert!(codes.iter().all(Result::is_ok), "{codes:?}");
    grids
}

/// A check that is left out is the header's to fill in; any other is handed on, also
/// one that is off.
#[test]
fn a_check_that_is_left_out_is_off_to_the_archive() {
    let bridge = start(Empty::Null);
    let told = |buddy: Option<Buddy>| {
        told_by_each(&bridge, &Call { buddy, ..call(0) }).map(|grid| grid[6..9].to_vec())
    };
    assert_eq!(told(None), [const { [0; 3] }; 3]);
    for (on, radius, limit) in [(false, 0, 0), (false, i32::MIN, -1), (true, 512, i32::MAX)] {
        let said = [on.into(), radius, limit];
        assert_eq!(told(Some(Buddy { on, radius, limit })), [said; 3]);
    }
}

/// A rule that is left out is the header's to fill in; any other is handed on, bad
/// ones too.
#[test]
fn a_rule_that_is_left_out_is_the_default_to_the_archive() {
    let bridge = start(Empty::Null);
    let told =
        |rule: Option<u32>| told_by_each(&bridge, &Call { rule, ..call(0) }).map(|grid| grid[5]);
    assert_eq!(told(None), [1; 3]);
    for (rule, said) in [(0, 0), (1, 1), (2, 2), (3, 3), (u32::MAX, -1)] {
        assert_eq!(told(Some(rule)), [said; 3]);
    }
}

#[test]
fn winds_that_are_left_out_are_marks_to_the_archive() {
    for empty in [Empty::Dangling, Empty::Null] {
        let marks = [4, 4, i32::MIN, i32::MIN];
        assert_eq!(winds_of(empty, None), (Ok(0), marks), "as many as x has");
        let given = Winds { u: vec![7], v: vec![8] };
        assert_eq!(winds_of(empty, Some(given)), (Ok(0), [1, 1, 7, 8]));
    }
}

/// The stub says no more than the null addresses where the grid is empty.
#[test]
fn winds_that_are_given_and_empty_are_not_left_out() {
    let nulls = |winds: Winds| {
        let call = Call { winds: Some(winds), ..call(0) };
        let results = Results { grid: &mut [], support: &mut [0], verdict: &mut [0] };
        start(Empty::Null).analyse(&call, results)
    };
    let (none, one) = (Vec::new, || vec![1]);
    assert_eq!(nulls(Winds { u: one(), v: one() }), Ok(1), "the grid");
    assert_eq!(nulls(Winds { u: none(), v: one() }), Ok(2));
    assert_eq!(nulls(Winds { u: one(), v: none() }), Ok(2));
    assert_eq!(nulls(Winds { u: none(), v: none() }), Ok(1), "both have an address");
}

/// A query in which no two lengths are alike; an x below 0 asks for a fault.
fn query(x: i32) -> Query {
    Query { nx: 1, ny: 2, field: vec![x, 0, 0, 8], support: vec![0, 0, 5], x, y: 70_000 }
}

#[test]
fn readings_and_summaries_cross_the_bridge() {
    let bridge = start(Empty::Null);
    let kind = 1 + 20 + 400 + 3_000 + 6 + 70_000;
    assert_eq!(bridge.reading_kind(&query(6)), Ok(kind));
    let value = f64::from(kind) + 4.0 + 5.0 / 1024.0;
    assert_eq!(bridge.reading_value(&query(6)), Ok(value));
    let summary = bridge.summary(&query(6)).expect("answered");
    assert_eq!((summary.refusal, summary.place), (1, 2));
    assert_eq!((summary.lowest, summary.highest, summary.span), (2.0, 8.0, 0.0));
    let empty = Query { field: vec![], support: vec![], ..query(6) };
    let bits = |value: Answer<f64>| value.map(f64::to_bits);
    assert_eq!(bits(bridge.reading_value(&empty)), Ok((-0.0_f64).to_bits()), "not positive zero");
    let nulls = |empty_as| {
        let bridge = start(empty_as);
        (bridge.reading_kind(&empty), bridge.summary(&empty).map(|summary| summary.span))
    };
    assert_eq!((nulls(Empty::Dangling), nulls(Empty::Null)), ((Ok(0), Ok(0.0)), (Ok(2), Ok(1.0))));
}

#[test]
fn changes_by_readings_and_summaries_are_seen() {
    let bridge = start(Empty::Dangling);
    for (fault, name) in [(-7, "field"), (-8, "support")] {
        let seen = format!("the input {name} is changed by the call");
        assert_eq!(bridge.reading_kind(&query(fault)), Err(seen.clone()));
        assert_eq!(bridge.reading_value(&query(fault)), Err(seen));
    }
    assert!(bridge.summary(&query(-7)).is_err_and(|said| said.contains("field is changed")));
    assert!(bridge.summary(&query(6)).is_ok());
}

#[test]
fn empty_slices_are_null_where_asked() {
    let nulls = |empty| {
        let results = Results { grid: &mut [], support: &mut [], verdict: &mut [] };
        start(empty).analyse(&Call::default(), results)
    };
    assert_eq!((nulls(Empty::Dangling), nulls(Empty::Null)), (Ok(0), Ok(12)));
    let nulls = |empty| {
        let results = Results { grid: &mut [], support: &mut [], verdict: &mut [] };
        start(empty).window(&Call::default(), &Window::new(0, 0, 0, 0), results)
    };
    assert_eq!((nulls(Empty::Dangling), nulls(Empty::Null)), (Ok(0), Ok(11)));
    let nulls = |empty| {
        let results = Results { grid: &mut [], support: &mut [], verdict: &mut [] };
        start(empty).windows(&Call::default(), &Screen::default(), results)
    };
    assert_eq!((nulls(Empty::Dangling), nulls(Empty::Null)), (Ok(0), Ok(15)), "zero windows");
}

#[test]
fn writes_outside_the_results_are_seen() {
    let bridge = start(Empty::Dangling);
    for (time, name) in (1..).zip(["grid", "grid", "support", "support", "verdict", "verdict"]) {
        let seen = format!("{name} is written outside its slice");
        if name != "verdict" {
            assert_eq!(window_answer(&bridge, time).0, Err(seen.clone()), "fault {time}");
            assert_eq!(windows_answer(&bridge, time).0, Err(seen.clone()), "fault {time}");
        }
        assert_eq!(answer(&bridge, time).0, Err(seen), "fault {time}");
    }
    let stations = ["first_guess", "x", "y", "value", "observed", "from", "until"];
    let others = ["wind_u", "wind_v", "radius", "limit"];
    for (time, name) in (7..).zip(stations.into_iter().chain(others)) {
        let seen = format!("the input {name} is changed by the call");
        assert_eq!(window_answer(&bridge, time).0, Err(seen.clone()), "fault {time}");
        assert_eq!(windows_answer(&bridge, time).0, Err(seen.clone()), "fault {time}");
        assert_eq!(answer(&bridge, time).0, Err(seen), "fault {time}");
    }
    for (time, name) in (19..).zip(["left", "right", "top", "bottom"]) {
        let seen = format!("the input {name} is changed by the call");
        assert_eq!(windows_answer(&bridge, time).0, Err(seen), "fault {time}");
    }
    assert_eq!(windows_answer(&bridge, 0).0, Ok(0));
    assert_eq!((answer(&bridge, 0).0, window_answer(&bridge, 0).0), (Ok(0), Ok(0)));
}

#[test]
fn a_crash_is_seen_and_the_next_call_answered() {
    let bridge = start(Empty::Dangling);
    for _ in 0..3 {
        let died = answer(&bridge, 18).0.expect_err("it aborts");
        assert!(died.starts_with("the archive died in this call: signal: 6"), "{died}");
        assert_eq!(answer(&bridge, 0).0, Ok(0));
    }
}
