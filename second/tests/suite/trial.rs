//! The bridge of smoothings, built for this processor around a stub.

use crate::command::second;
use second::bridge::Empty;
use second::compare::{Answer, Subject};
use second::trial::Trial;
use std::process::Command;
use std::sync::OnceLock;

const PROGRAM: &str = concat!(env!("CARGO_TARGET_TMPDIR"), "/smoothing");

fn built() -> &'static str {
    static BUILT: OnceLock<()> = OnceLock::new();
    BUILT.get_or_init(|| {
        let flags = ["-std=c11", "-Wall", "-Wextra", "-Werror", "-o", PROGRAM];
        let sources = ["bridge/smoothing.c", "tests/suite/smoothing_stub.c"];
        let status = Command::new("cc").args(flags).args(sources).status();
        assert!(status.expect("a C compiler").success());
    });
    PROGRAM
}

fn start(empty: Empty) -> Trial {
    Trial::start(built(), empty).expect("it starts")
}

fn answer(trial: &Trial, nx: u32, ny: u32) -> (Answer<bool>, [i32; 4]) {
    let mut values = [i32::MIN, 7, -8, 1_000];
    (trial.smooth(nx, ny, &mut values), values)
}

#[test]
fn fields_cross_the_bridge() {
    let trial = start(Empty::Dangling);
    assert_eq!(answer(&trial, 6, 5), (Ok(true), [i32::MIN + 6, 7, -8, 1_450]));
    assert_eq!(answer(&trial, 5, 6), (Ok(false), [i32::MIN + 5, 7, -8, 1_460]));
    assert_eq!(answer(&trial, u32::MAX, 0).0, Ok(true));
    let mut large = vec![-1; 65 * 65];
    assert_eq!(trial.smooth(0, 0, &mut large), Ok(false));
    assert_eq!(large[65 * 65 - 1], 422_499);
}

#[test]
fn an_empty_field_is_null_where_asked() {
    let null = |empty| start(empty).smooth(2, 2, &mut []);
    assert_eq!((null(Empty::Dangling), null(Empty::Null)), (Ok(false), Ok(true)));
}

#[test]
fn writes_outside_the_field_are_seen() {
    let trial = start(Empty::Dangling);
    for fault in 1001..=1004 {
        let seen = "field is written outside its slice".to_string();
        assert_eq!(answer(&trial, fault, 5).0, Err(seen), "fault {fault}");
    }
    assert_eq!(trial.smooth(1002, 5, &mut []), Err("field is written outside its slice".into()));
    assert_eq!(answer(&trial, 6, 5).0, Ok(true));
}

#[test]
fn a_crash_is_seen_and_the_next_field_answered() {
    let trial = start(Empty::Dangling);
    for _ in 0..3 {
        let died = answer(&trial, 1005, 5).0.expect_err("it aborts");
        assert!(died.starts_with("the archive died in this call: signal: 6"), "{died}");
        assert_eq!(answer(&trial, 6, 5).0, Ok(true));
    }
}

#[test]
fn compare_reports_the_smallest_field() {
    let output =
        second(&["compare", "smoothing", "3", "20"], &[("SOSNYAVIK_SMOOTHING", built())], "");
    let message = String::from_utf8_lossy(&output.stderr).into_owned();
    assert_eq!(output.status.code(), Some(1), "{message}");
    let said = "second: smoothing case 1 of seed 3: the field is refused, not accepted\n\
        smallest failing request:\nnx,ny=2,2\nfield=0,0,0,0\n";
    assert_eq!(message.trim_end(), said.trim_end(), "the stub wants more columns than rows");
}
