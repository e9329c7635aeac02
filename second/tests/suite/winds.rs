//! The stretched weight: the rules of request 5 worked by hand, and faults of
//! winds that the harness must see early and make small.

use crate::faulty::{Fault, Faulty};
use crate::faulty_winds::{WindFault, OF_REFUSALS, OF_WEIGHTS};
use crate::posts::{run_cases, seen_within};
use crate::{changed, lone_station, sample};
use second::call::{Call, Winds};
use second::cases::{AnalysisCase, WindowCase};
use second::compare::Case;
use second::generate::push_station;
use second::impossible::{moved_by_wind, out_of_bounds, wrong_weight};
use second::rng::Rng;
use second::scan::{weight, weight_at, Effective};
use second::scheme::{analyse, run};
use second::screen_case::ScreenCase;
use second::units::{HUNDREDTHS, MISSING, RADIUS, WEIGHT_SCALE};
use second::write::rerun_form;

fn stretched(radius: i64, offset: (i64, i64), wind: (i64, i64)) -> i64 {
    weight_at(WEIGHT_SCALE, radius * radius, offset, Some(wind))
}

/// 9,216(1 + c²), with c² = 1, 1/2 and 0, over d2 = 4,096: 14,336 over 22,528,
/// 9,728 over 17,920 and 5,120 over 13,312.
#[test]
fn weights_are_stretched_along_the_wind() {
    let winds = [(10, 0), (20, 0), (-10, 0), (10, 10), (0, 10)];
    let weights = |offset| winds.map(|wind| stretched(96, offset, wind));
    assert_eq!(weights((64, 0)), [6_363, 6_363, 6_363, 5_428, 3_846]);
    assert_eq!(weights((64, 64)), [2_558, 2_558, 2_558, 3_846, 2_558]);
    assert_eq!(weights((96, 0)), [0; 5], "d2 = R²");
    assert_eq!(weights((-64, 0)), weights((64, 0)));
    assert_eq!(stretched(96, (64, 64), (-10, -10)), 3_846);
    assert_eq!(stretched(96, (64, 64), (10, -10)), weight(9_216, 8_192), "at right angles");
}

#[test]
fn calm_missing_wind_and_the_station_itself_have_the_round_weight() {
    for offset in [(0, 0), (64, 0), (64, 64), (96, 0)] {
        let d2 = offset.0 * offset.0 + offset.1 * offset.1;
        assert_eq!(stretched(96, offset, (0, 0)), weight(9_216, d2));
        assert_eq!(weight_at(WEIGHT_SCALE, 9_216, offset, None), weight(9_216, d2));
    }
    assert_eq!(stretched(96, (0, 0), (100, -100)), WEIGHT_SCALE);
}

#[test]
fn only_stations_inside_the_radius_are_stretched() {
    // 70² + 70² is 99² - 1, and the round weight there is 0.
    assert_eq!((weight(99 * 99, 9_800), stretched(99, (70, 70), (3, 3))), (0, 3_333));
    assert_eq!(stretched(100, (60, 80), (60, 80)), 0);
    assert_eq!(stretched(64, (0, 65), (0, 1)), 0);
}

/// Effective radii and distances that no 64 bits hold, 10,000 times.
#[test]
fn the_largest_products_are_exact() {
    let (offset, wind) = ((723, 724), (100, 100));
    let d2 = 723 * 723 + 724 * 724;
    let Effective { over, under } = Effective::new(1 << 20, offset, wind);
    assert_eq!((over, under), ((1 << 20) * (20_000 * d2 + 144_700 * 144_700), 20_000 * d2));
    let dividend = 10_000 * (over - under * d2);
    assert!(dividend > i128::from(u64::MAX), "{dividend}");
    assert_eq!(stretched(1_024, offset, wind), 3_340);
    assert_eq!(stretched(1_024, (1, 0), (100, 0)), 9_999);
}

/// Any radius, any offset from inside it to somewhat outside, and any wind.
fn pairs(count: u64) -> impl Iterator<Item = (i64, (i64, i64), (i64, i64))> {
    (0..count).map(|index| {
        let mut rng = Rng::for_case(5, 9, index);
        let (short, any) = (rng.between(1, 200), rng.between(1, *RADIUS.end()));
        let radius = rng.pick(&[short, any, *RADIUS.end()]);
        let mut number = |most: i32| i64::from(rng.between(-most, most));
        let offset = (number(radius), number(radius));
        (i64::from(radius), offset, (number(100), number(100)))
    })
}

/// The weight by long division, as the readings have it: in 64 bits throughout.
fn in_two_steps(r2: i64, (dx, dy): (i64, i64), (u, v): (i64, i64)) -> i64 {
    let (d2, strength, along) = (dx * dx + dy * dy, u * u + v * v, u * dx + v * dy);
    let (p, q) = (r2 * (strength * d2 + along * along), strength * d2 * d2);
    let (hundreds, rest) = (100 * (p - q) / (p + q), 100 * (p - q) % (p + q));
    100 * hundreds + 100 * rest / (p + q)
}

#[test]
fn a_stretched_weight_is_between_the_round_one_and_the_scale() {
    let (mut more, mut inside) = (0, 0);
    for (radius, offset, wind) in pairs(200_000) {
        let (r2, d2) = (radius * radius, offset.0 * offset.0 + offset.1 * offset.1);
        let (round, along) = (weight(r2, d2), stretched(radius, offset, wind));
        assert!(round <= along && along <= WEIGHT_SCALE, "{radius} {offset:?} {wind:?}");
        assert_eq!(along, stretched(radius, offset, (-wind.0, -wind.1)));
        let hundredths = weight_at(HUNDREDTHS, r2, offset, Some(wind));
        assert_eq!(along / 100, hundredths, "a hundredth of it, cut, is that in hundredths");
        if 0 < d2 && d2 < r2 && wind != (0, 0) {
            assert_eq!(along, in_two_steps(r2, offset, wind), "{radius} {offset:?} {wind:?}");
        }
        inside += u32::from(d2 < r2);
        more += u32::from(along > round);
    }
    assert!(inside > 100_000 && more > 90_000, "{inside} {more}");
}

/// Case (i) with winds.
fn blown(u: [i32; 3], v: [i32; 3], mode: u32) -> Call {
    changed(|call| (call.winds, call.mode) = (Some(Winds { u: u.into(), v: v.into() }), mode))
}

/// At the point beside the first station along x: 3,846 of 128 and 6,363 of -64
/// in ten-thousandths without a fraction; below it the other way round.
#[test]
fn case_i_with_a_wind_along_the_rows() {
    let call = blown([10, 10, MISSING], [0, 0, MISSING], 1);
    let analysis = analyse(&call).expect("accepted");
    assert_eq!(analysis.grid, [615, 648, 768, 696, 729, 768, 768, 768, 768]);
    assert_eq!((analysis.support, analysis.verdict), (vec![1; 9], vec![0, 0, 2]));
    let round = analyse(&sample()).expect("accepted");
    for same in [
        blown([10, 10, MISSING], [0, 0, MISSING], 0),
        blown([0; 3], [0; 3], 1),
        blown([MISSING; 3], [MISSING; 3], 1),
        changed(|call| call.mode = 1),
    ] {
        assert_eq!(analyse(&same).as_ref(), Ok(&round));
    }
}

#[test]
fn each_station_has_its_own_wind() {
    // Of two stations at one distance, the one with a wind that blows here pulls more.
    let mut call = lone_station(2, 2, 0, -64, 0, 100);
    push_station(&mut call, 64, 0, -100);
    call.winds = Some(Winds { u: vec![5, 0], v: vec![0, 5] });
    call.mode = 1;
    call.fit_results();
    // 6,363 against 3,846, of 100 each: 251,700 over 10,209.
    assert_eq!(run(&call).grid[0], 25);
    call.winds = Some(Winds { u: vec![0, 5], v: vec![5, 0] });
    assert_eq!(run(&call).grid[0], -25);
}

#[test]
fn a_post_is_heard_from_its_true_position() {
    // A post 98 units out: the round weight is 3,960,000 over 19,604, and that along
    // its wind 103,960,000 over 29,604.
    let mut call = lone_station(2, 2, 0, -98, 0, 100);
    push_station(&mut call, 0, 98, -100);
    (call.radius, call.mode) = (vec![100], 1);
    call.winds = Some(Winds { u: vec![1, 1], v: vec![0, 0] });
    call.fit_results();
    let weights = [weight(10_000, 98 * 98), stretched(100, (-98, 0), (1, 0))];
    assert_eq!(weights, [201, 3_511]);
    // 331,000 over 3,712.
    assert_eq!(run(&call).grid[0], 89);
}

/// A station whose round weight is 0 gives support by its wind alone.
#[test]
fn the_wind_alone_may_give_support() {
    let mut call = lone_station(2, 2, 0, -70, -70, 100);
    call.radius = vec![99];
    call.winds = Some(Winds { u: vec![1], v: vec![1] });
    assert_eq!((run(&call).support[0], run(&call).grid[0]), (0, 0));
    call.mode = 1;
    assert_eq!((run(&call).support, run(&call).grid), (vec![1, 0, 0, 0], vec![100, 0, 0, 0]));
    call.winds = Some(Winds { u: vec![1], v: vec![-1] });
    assert_eq!(run(&call).support[0], 0, "at right angles");
}

#[test]
fn what_no_answer_may_hold_is_seen() {
    let call = blown([10, 10, MISSING], [0, 0, MISSING], 0);
    let (round, along) = (run(&call), run(&Call { mode: 1, ..call.clone() }));
    assert_eq!(moved_by_wind(&call, &round), None);
    let said = "in mode 0 the winds change the answer";
    assert_eq!(moved_by_wind(&call, &along).as_deref(), Some(said));
    assert_eq!(moved_by_wind(&Call { mode: 1, ..call.clone() }, &along), None);
    assert_eq!(moved_by_wind(&Call { winds: None, ..call.clone() }, &along), None, "not looked at");
    assert_eq!(wrong_weight(&Call { mode: 1, ..call }, &along.verdict), None);
    for (round, along) in [(0, 0), (0, 1), (588, 588), (588, 2_558), (10_000, 10_000)] {
        assert_eq!(out_of_bounds(round, along), None);
    }
    let said = "a weight is 587 along the wind, and 588 without it";
    assert_eq!(out_of_bounds(588, 587).as_deref(), Some(said));
    assert!(out_of_bounds(588, 10_001).is_some() && out_of_bounds(0, -1).is_some());
}

/// The old requests are not crowded out.
fn a_third_is_round<C: Case>(call: fn(C) -> Call) {
    let calls = (0..3_000).map(|index| call(C::generate(3, index)));
    let is_round = |call: &Call| {
        let winds = call.winds.iter().flat_map(Winds::columns);
        call.mode == 0 && winds.flatten().all(|number| *number == MISSING)
    };
    let round = calls.filter(is_round).count();
    assert!((1_000..1_400).contains(&round), "{round} of 3,000 {}", C::KIND);
}

#[test]
fn a_third_of_the_requests_have_no_wind_and_mode_0() {
    a_third_is_round::<AnalysisCase>(|case| case.0);
    a_third_is_round::<WindowCase>(|case| case.call);
    a_third_is_round::<ScreenCase>(|case| case.call);
}

/// So many generated requests of each kind, of any seed, show each fault of winds.
/// Over 20 seeds the first that did was case 415 at the latest.
const ENOUGH: u64 = 500;

fn faults() -> Vec<Fault> {
    OF_WEIGHTS.into_iter().chain(OF_REFUSALS).map(Fault::Winds).collect()
}

#[test]
fn faults_of_winds_are_seen_early() {
    seen_within::<AnalysisCase>(ENOUGH, &faults());
    let of_cuts = [Fault::Winds(WindFault::CutWithTheFirstWinds)];
    seen_within::<WindowCase>(ENOUGH, &[faults(), of_cuts.to_vec()].concat());
    seen_within::<ScreenCase>(ENOUGH, &[faults(), of_cuts.to_vec()].concat());
}

#[test]
fn faults_of_winds_are_made_small() {
    for fault in OF_WEIGHTS {
        let failure = run_cases::<AnalysisCase>(&Faulty(Fault::Winds(fault)), ENOUGH).failure;
        let call = failure.expect("seen").smallest.0;
        assert!(call.x.len() <= 2 && call.first_guess.len() <= 16, "{fault:?}: {call:?}");
        assert!(call.scans <= 2 && call.mode == 1, "{fault:?}: {call:?}");
    }
    for fault in OF_REFUSALS {
        let failure = run_cases::<AnalysisCase>(&Faulty(Fault::Winds(fault)), ENOUGH).failure;
        let call = failure.expect("seen").smallest.0;
        assert!(call.x.len() <= 2 && call.first_guess.len() <= 4, "{fault:?}: {call:?}");
        let winds = call.winds.unwrap_or_default();
        assert!(winds.columns().iter().all(|column| column.len() <= 2), "{fault:?}: {winds:?}");
    }
}

/// Winds and modes are made small too: what does not count is left out.
#[test]
fn winds_and_modes_are_made_small() {
    let smallest = |fault| {
        let failure = run_cases::<AnalysisCase>(&Faulty(Fault::Winds(fault)), ENOUGH).failure;
        failure.expect("seen").smallest.0
    };
    let half = smallest(WindFault::UMissingPasses);
    assert_eq!((half.winds, half.mode), (Some(Winds { u: vec![MISSING], v: vec![0] }), 0));
    let past = smallest(WindFault::OnePastTheBoundPasses).winds.expect("given");
    assert_eq!(past.u[0].abs().max(past.v[0].abs()), 101);
    assert_eq!(past.u[0].abs().min(past.v[0].abs()), 0);
    let two = smallest(WindFault::TwoIsOne);
    assert_eq!((two.winds, two.mode, two.x.len()), (None, 2, 0));
    let other = smallest(WindFault::OtherModesAreRound);
    assert_eq!((other.winds, other.mode, other.x.len()), (None, 2, 0));
    let byte = smallest(WindFault::ModeInOneByte);
    assert!(byte.winds.is_none() && byte.mode > 255, "{byte:?}");
}

/// The new columns and the mode stand where the C calls have them.
#[test]
fn winds_are_listed_in_the_order_of_the_c_calls() {
    let listed = rerun_form(&blown([10, 10, MISSING], [0, 0, MISSING], 1));
    let keys: Vec<&str> = listed.lines().filter_map(|line| line.split('=').next()).collect();
    let stations = ["nx,ny", "first_guess", "x", "y", "value", "observed", "from", "until"];
    let rest = ["wind_u", "wind_v", "scans", "radius", "limit", "smooth", "mode", "time,age"];
    assert_eq!(keys[..8], stations);
    assert_eq!(keys[8..16], rest);
    assert!(listed.contains("\nwind_u=10,10,-2147483648\nwind_v=0,0,-2147483648\nscans=1\n"));
    let left_out = rerun_form(&changed(|call| call.mode = 1));
    assert!(left_out.contains("\nuntil=4294967295,4294967295,995\nscans=1\n"), "{left_out}");
    let round = rerun_form(&blown([MISSING; 3], [MISSING; 3], 0));
    assert!(round.contains("\nmode=0\n"), "winds that are given are not for a text");
    assert!(rerun_form(&sample()).starts_with("grid=3,3\n"));
}
