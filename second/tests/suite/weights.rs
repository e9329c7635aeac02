//! Weights in ten-thousandths beside the old hundredths, and faults of weights
//! that the harness must see early and make small.

use crate::faulty::{Fault, Faulty};
use crate::faulty_weights::{OF_NUMBERS, OF_SUPPORT};
use crate::posts::{requests, run_cases, seen_within};
use second::cases::{AnalysisCase, TextCase, WindowCase};
use second::rng::Rng;
use second::scan::{weight, weight_in};
use second::scheme::run_in;
use second::screen_case::ScreenCase;
use second::units::{HUNDREDTHS, RADIUS};

/// So many generated requests of each kind, of any seed, show each fault of
/// weights. Over 20 seeds the first that did was case 331 at the latest, for a
/// station without a weight that is alone inside the radius; case 130 for all
/// others.
const ENOUGH: u64 = 500;

fn faults() -> Vec<Fault> {
    OF_NUMBERS.into_iter().chain(OF_SUPPORT).map(Fault::Weights).collect()
}

#[test]
fn faults_of_weights_are_seen_early() {
    seen_within::<AnalysisCase>(ENOUGH, &faults());
    seen_within::<TextCase>(ENOUGH, &faults());
    seen_within::<WindowCase>(ENOUGH, &faults());
    seen_within::<ScreenCase>(ENOUGH, &faults());
}

#[test]
fn faults_of_weights_are_made_small() {
    for fault in faults() {
        let failure = run_cases::<AnalysisCase>(&Faulty(fault), ENOUGH).failure.expect("seen");
        let call = failure.smallest.0;
        assert!(call.x.len() <= 3 && call.first_guess.len() <= 6, "{fault:?}: {call:?}");
        assert!(call.scans <= 2, "{fault:?}: {call:?}");
    }
    for fault in OF_SUPPORT.map(Fault::Weights) {
        let failure = run_cases::<WindowCase>(&Faulty(fault), ENOUGH).failure.expect("seen");
        let WindowCase { call, window } = failure.smallest;
        assert_eq!((call.x.len(), call.scans, window.area()), (1, 1, 1), "{fault:?}: {call:?}");
    }
}

/// The whole part of a hundredth of a whole part is that of the hundredth.
fn keeps_its_hundredths(r2: i64, d2: i64) {
    assert_eq!(weight(r2, d2) / 100, weight_in(HUNDREDTHS, r2, d2), "{r2} {d2}");
}

#[test]
fn a_hundredth_of_a_weight_is_the_old_weight() {
    for radius in 1..=160_i64 {
        (0..=radius * radius + 1).for_each(|d2| keeps_its_hundredths(radius * radius, d2));
    }
    let mut rng = Rng::for_case(1, 7, 0);
    for _ in 0..500_000 {
        let r2 = i64::from(rng.between(161, *RADIUS.end())).pow(2);
        let any = i64::from(rng.between(0, r2 as i32 + 1));
        let near = r2 - i64::from(rng.between(0, r2 as i32 / 40));
        [any, near].into_iter().for_each(|d2| keeps_its_hundredths(r2, d2));
    }
}

/// Which stations the first scan accepts is no matter of weights.
#[test]
fn the_first_scan_keeps_all_support_of_hundredths() {
    let (mut held, mut gained) = (0, 0);
    for (call, analysis) in requests(11, 6_000) {
        let old = run_in(&call, HUNDREDTHS);
        for (new, old) in analysis.support.iter().zip(&old.support) {
            assert!(old & 1 <= new & 1, "{call:?}");
            gained += u64::from(new & 1 > old & 1);
            held += u64::from(old & 1);
        }
    }
    assert!(held > 50_000 && gained > 300, "{held} points had support, {gained} gained it");
}
