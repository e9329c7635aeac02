//! The tests of the second program, in one binary.

mod bridge;
mod buddies;
mod buddy_faults;
mod buddy_sorts;
mod command;
mod faulty;
mod faulty_buddies;
mod faulty_fields;
mod faulty_lines;
mod faulty_rules;
mod faulty_screens;
mod faulty_weights;
mod faulty_winds;
mod field_sorts;
mod fields;
mod harness;
mod numbers;
mod posts;
mod program;
mod readings;
mod real;
mod refusals;
mod rule_sorts;
mod rules;
mod screen_sorts;
mod screens;
mod serve;
mod sorts;
mod texts;
mod trial;
mod weight_sorts;
mod weights;
mod wind_sorts;
mod windows;
mod winds;

use second::call::{Call, Refusal};
use second::refusals::check_analysis;
use second::text::parse;

/// Case (i) of the paper, from which most tests start.
const REQUEST: &str = "grid=3,3\ntime=1000\nage=60\nsmooth=0\nscans=1\nscan=96,200\n\
    row=640,640,640\nrow=640,640,640\nrow=640,640,640\nstations=3\n\
    st=64,64,768,990,0,open\nst=0,0,576,1000,0,open\nst=128,128,700,990,0,995\n";

const ANSWER: &str = "refusal=0\nplace=0\nrow=587,672,768\nrow=672,757,768\nrow=768,768,768\n\
    sup=1,1,1\nsup=1,1,1\nsup=1,1,1\nver=0,0,2\n";

fn sample() -> Call {
    parse(REQUEST.as_bytes()).expect("the paper's request is in form")
}

/// Case (i) with something changed.
fn changed(change: impl FnOnce(&mut Call)) -> Call {
    let mut call = sample();
    change(&mut call);
    call
}

/// Case (i) with something changed, and how it is refused.
fn refused(change: impl FnOnce(&mut Call)) -> (Call, Refusal) {
    let call = changed(change);
    let refusal = check_analysis(&call).expect_err("refused");
    (call, refusal)
}

/// A call with one station, fresh and in service for good.
fn lone_station(nx: u32, ny: u32, guess: i32, x: i32, y: i32, value: i32) -> Call {
    let mut call = Call {
        nx,
        ny,
        first_guess: vec![guess; (nx * ny) as usize],
        x: vec![x],
        y: vec![y],
        value: vec![value],
        observed: vec![1000],
        from: vec![0],
        until: vec![u32::MAX],
        scans: 1,
        radius: vec![96],
        limit: vec![200],
        time: 1000,
        age: 60,
        ..Call::default()
    };
    call.fit_results();
    call
}
