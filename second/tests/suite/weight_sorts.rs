//! The sorts of weights are told apart, and each has its floor.

use crate::sorts::{held, numbers};
use crate::{changed, lone_station};
use second::call::{Call, Window};
use second::generate::push_station;
use second::scheme::run;
use second::sorts::Sort;
use second::weight_sorts::{floors, of_accepted, of_window, window_floors};

/// A grid of 9 by 8 with a station of D = 60 in one scan. Only the first point
/// is near to where it stands.
fn heard_in_the_corner(radius: i32, x: i32, y: i32) -> Call {
    let mut call = lone_station(9, 8, 640, x, y, 700);
    call.radius = vec![radius];
    call
}

fn with_another(mut call: Call, x: i32, y: i32) -> Call {
    push_station(&mut call, x, y, 700);
    call.fit_results();
    call
}

fn told(call: &Call) -> Vec<Sort> {
    of_accepted(call, &run(call))
}

#[test]
fn support_that_is_gained_is_told_apart() {
    let gained = |call: &Call| numbers(&told(call), "point with support");
    // 63² + 8² = 4,033 and 63² + 7² = 4,018 are past 4,014, and 63² + 6² is not.
    assert_eq!(gained(&heard_in_the_corner(64, -63, 8)), [0]);
    assert_eq!(gained(&heard_in_the_corner(64, -63, -7)), [0]);
    assert_eq!(gained(&heard_in_the_corner(64, -63, 6)), [0; 0]);
    assert_eq!(gained(&heard_in_the_corner(64, -64, 0)), [0; 0], "on the rim");
    let two = with_another(heard_in_the_corner(64, -63, 8), 3, -3);
    assert_eq!(gained(&two), [0; 0], "hundredths hear the other");
    assert_eq!(gained(&with_another(heard_in_the_corner(64, -63, 8), 8, -63)), [0]);
    let mut later = heard_in_the_corner(96, -63, 8);
    (later.scans, later.radius, later.limit) = (2, vec![96, 64], vec![60; 2]);
    assert_eq!(gained(&later), [1]);
    later.limit[1] = 59;
    assert_eq!(gained(&later), [0; 0], "rejected before");
}

#[test]
fn support_that_a_window_gains_is_told_apart() {
    let call = heard_in_the_corner(64, -63, 8);
    let gained = |ends: [u32; 4]| {
        let window = Window::new(ends[0], ends[1], ends[2], ends[3]);
        numbers(&of_window(&call, &window, &run(&call).verdict), "point of the window")
    };
    assert_eq!(gained([0, 0, 0, 0]), [0]);
    assert_eq!(gained([0, 8, 0, 7]), [0]);
    assert_eq!(gained([1, 8, 0, 7]), [0; 0]);
    assert_eq!(gained([0, 8, 1, 7]), [0; 0]);
}

#[test]
fn stations_at_the_rim_are_told_apart() {
    let at = |call: &Call| {
        let sorts = told(call);
        ["station at a squared", "station inside the radius", "weight of exactly"]
            .map(|name| numbers(&sorts, name))
    };
    // 70² + 70² is 99² - 1, and 90² + 91² is 128² - 3.
    assert_eq!(at(&heard_in_the_corner(99, -70, -70)), [vec![0], vec![0], vec![]]);
    assert_eq!(at(&heard_in_the_corner(128, -90, -91)), [vec![], vec![0], vec![]]);
    assert_eq!(at(&heard_in_the_corner(9, -8, -4)), [vec![0], vec![], vec![]], "62 is a weight");
    assert_eq!(at(&heard_in_the_corner(96, -96, 0)), [vec![1], vec![], vec![]]);
    assert_eq!(at(&heard_in_the_corner(96, -96, -1)), [vec![2], vec![], vec![]]);
    assert_eq!(at(&heard_in_the_corner(96, -96, -2)), [const { vec![] }; 3]);
    // 99² + 14² is 100² - 3, and 30,000 over 19,997 is 1.
    assert_eq!(at(&heard_in_the_corner(100, -99, -14)), [vec![], vec![], vec![0]]);
    assert_eq!(at(&heard_in_the_corner(60, 0, 0)), [vec![], vec![], vec![1]]);
    assert_eq!(at(&heard_in_the_corner(1, 0, 0)), [vec![], vec![], vec![1]], "at no rim");
    let beside = with_another(heard_in_the_corner(99, -70, -70), -5, -5);
    assert_eq!(at(&beside), [vec![0], vec![1], vec![]]);
    let silent = with_another(heard_in_the_corner(99, -70, -70), -70, -70);
    assert_eq!(at(&silent), [vec![0], vec![], vec![]], "neither alone nor beside a weight");
}

#[test]
fn stations_that_hundredths_do_not_tell_apart_are_seen() {
    let alike = |radius, one: (i32, i32), other: (i32, i32)| {
        let call = with_another(heard_in_the_corner(radius, one.0, one.1), other.0, other.1);
        numbers(&told(&call), "stations alike")
    };
    // 77 and 68; 3,846 and 3,845; twice 3,846; 3,846 and 3,676.
    assert_eq!(alike(64, (-63, 8), (-62, 14)), [0]);
    assert_eq!(alike(96, (-64, 0), (-64, -1)), [1]);
    assert_eq!(alike(96, (-64, 0), (0, -64)), [0; 0]);
    assert_eq!(alike(96, (-64, 0), (-65, -6)), [0; 0]);
}

#[test]
fn fractions_and_wide_radii_are_told_apart() {
    let told = |radius, x, y| {
        let sorts = told(&heard_in_the_corner(radius, x, y));
        ["weight whose fraction", "station inside a radius"].map(|name| numbers(&sorts, name))
    };
    // 3,846.15; 588.24; 112.33; 77.5003; 6,000.
    assert_eq!(told(96, -64, 0), [vec![], vec![]]);
    assert_eq!(told(96, -64, -64), [vec![], vec![]]);
    assert_eq!(told(64, -63, -6), [vec![], vec![]]);
    assert_eq!(told(64, -63, -8), [vec![0], vec![]]);
    assert_eq!(told(128, -64, 0), [vec![1], vec![]]);
    assert_eq!(told(30, 0, 0), [vec![], vec![]], "whole, but at the station");
    let wide = |radius| told(radius, 0, 0)[1].clone();
    assert_eq!((wide(463), wide(464)), (vec![], vec![0]));
    assert_eq!((wide(655), wide(656)), (vec![0], vec![0, 1]));
    assert_eq!((wide(1_023), wide(1_024)), (vec![0, 1], vec![0, 1, 2]));
    assert_eq!(told(656, -256, 0)[1], [0], "10,000(R² - d2) fits at every point");
}

#[test]
fn requests_are_told_from_their_runs_in_hundredths() {
    let unlike = |call: &Call| numbers(&told(call), "request unlike");
    assert_eq!(unlike(&changed(|_| ())), [0], "case (i)");
    assert_eq!(unlike(&heard_in_the_corner(64, -63, 8)), [0, 1]);
    let mut agrees = heard_in_the_corner(64, -63, 8);
    agrees.value[0] = 640;
    assert_eq!(unlike(&agrees), [1], "D is 0");
    assert_eq!(unlike(&heard_in_the_corner(64, -5, 8)), [0; 0]);
    // The first scan leaves the two stations -11 and 11, or -9 and 9.
    let two_scans = changed(|call| {
        (call.scans, call.radius, call.limit) = (2, vec![96; 2], vec![200, 10]);
    });
    assert_eq!(unlike(&two_scans), [0, 1, 2]);
}

/// With 64 by 64 points and two stations there are more pairs than are looked at.
#[test]
fn where_there_are_many_pairs_points_are_left_out() {
    let many = |x, y| {
        let mut call = lone_station(64, 64, 640, x, y, 700);
        call.radius = vec![64];
        let sorts = told(&with_another(call, 2_000, 2_000));
        ["point with support", "request unlike"].map(|name| numbers(&sorts, name))
    };
    assert_eq!(many(-63, 8), [vec![0], vec![]], "the first point is looked at");
    assert_eq!(many(-63, 64 + 8), [const { vec![] }; 2], "the second row is not");
}

#[test]
fn every_sort_of_a_weight_has_a_floor() {
    let sorts = 5 * 2 + 3 * 3;
    assert_eq!((held(floors()), held(window_floors())), (sorts, sorts + 2));
}
