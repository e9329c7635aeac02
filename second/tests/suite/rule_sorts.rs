//! The sorts of rules and lone stations are told apart, and each has its floor.

use crate::sorts::{held, numbers};
use crate::{changed, lone_station, refused, sample, REQUEST};
use second::call::{Call, Window, Winds};
use second::generate::push_station;
use second::rule_sorts::{
    floors, of_accepted, of_refused, of_text, real_floors, real_text_floors, text_floors,
    window_floors,
};
use second::scheme::run;
use second::sorts::Sort;
use second::text::parse;
use second::units::MISSING;

/// A grid of 9 by 8 under rule 2, with a station in one scan that only the first point
/// is near to, if it is off the grid far enough.
fn heard_in_the_corner(radius: i32, (x, y): (i32, i32), d: i32) -> Call {
    let mut call = lone_station(9, 8, 0, x, y, d);
    (call.radius, call.rule) = (vec![radius], Some(2));
    call
}

/// The same with another row, which has a D of 7.
fn with_another(mut call: Call, (x, y): (i32, i32)) -> Call {
    push_station(&mut call, x, y, 7);
    call.fit_results();
    call
}

fn told(call: &Call) -> Vec<Sort> {
    of_accepted(call, &run(call), &[])
}

fn of(call: &Call, name: &str) -> Vec<u32> {
    numbers(&told(call), name)
}

#[test]
fn rules_and_modes_are_told_apart() {
    let given = |rule, mode| {
        of(&changed(|call| (call.rule, call.mode) = (rule, mode)), "accepted request with the rule")
    };
    let all = [None, Some(1), Some(2)].map(|rule| [given(rule, 0), given(rule, 1)].concat());
    assert_eq!(all, [[0, 1], [2, 3], [4, 5]]);
    assert_eq!(told(&sample()).len(), 1, "no more is said of rule 1");
    assert_eq!(told(&changed(|call| call.rule = Some(1))).len(), 1);
}

#[test]
fn lone_stations_are_told_apart() {
    let lone = |call: &Call| of(call, "point with one station alone");
    // 20 units from the first point, and more than the radius from any other.
    let call = heard_in_the_corner(60, (-20, 0), 100);
    assert_eq!(lone(&call), [0, 2, 3]);
    assert_eq!(lone(&with_another(call.clone(), (-30, 0))), [0; 0], "two");
    assert_eq!(lone(&with_another(call.clone(), (500, 400))), [0, 2, 3], "each alone");
    let mut later = with_another(call.clone(), (-50, 0));
    (later.scans, later.radius, later.limit) = (2, vec![60, 40], vec![200; 2]);
    assert_eq!(lone(&later), [1], "half of the two points and scans");
    assert_eq!(of(&later, "point that a later"), [0]);
    let mut gone = call.clone();
    (gone.scans, gone.radius, gone.limit) = (2, vec![60, 10], vec![200; 2]);
    assert_eq!((lone(&gone), of(&gone, "point that a later")), (vec![0, 2, 3], vec![1]));
    let post = |call: &Call| of(call, "lone post");
    assert_eq!((post(&call), post(&gone)), (vec![0], vec![0]));
    assert_eq!(post(&heard_in_the_corner(60, (20, 0), 100)), [0; 0], "on the grid");
}

#[test]
fn weights_and_corrections_are_told_apart() {
    let names = ["lone station of a weight", "lone station that moves"];
    let both = |radius, place, d| {
        let sorts = told(&heard_in_the_corner(radius, place, d));
        names.map(|name| numbers(&sorts, name))
    };
    // 3,600 - 400 over 4,000: 8,000.
    assert_eq!(both(60, (-20, 0), 100), [vec![2], vec![1]], "80, and no fraction");
    assert_eq!(both(60, (-20, 0), -101), [vec![2], vec![0, 5]], "-80.8");
    assert_eq!(both(60, (-20, 0), 103), [vec![2], vec![1, 6]], "82.4");
    assert_eq!(both(60, (-20, 0), 1), [vec![1], vec![]], "0.8 is rounded to all of D");
    assert_eq!(both(60, (-20, 0), 0), [vec![1], vec![]]);
    // 3,600 - 2,704 over 6,304: 1,421, and a half of 5,000 times that.
    let tie = |d| {
        let mut call = heard_in_the_corner(60, (-52, 0), d);
        call.limit = vec![1_000_000];
        of(&call, names[1])
    };
    assert_eq!((tie(5_000), tie(-5_000)), (vec![1, 3], vec![0, 4]));
    assert_eq!(tie(3), [1, 2, 6], "0.43");
    assert_eq!(tie(1_000_000), [1], "142,100; 1,421,000,000 is in 32 bits");
    let mut huge = heard_in_the_corner(60, (-20, 0), 300_000);
    huge.limit = vec![1_000_000];
    assert_eq!(of(&huge, names[1]), [1, 7]);
    assert_eq!(both(99, (-70, -70), 100), [vec![0], vec![]], "70² + 70² is 99² - 1");
    assert_eq!(both(60, (0, 0), 100), [vec![3], vec![]], "at the point");
}

#[test]
fn what_stands_beside_is_told_apart() {
    let but_for = |call: &Call| of(call, "station with a weight that would be alone");
    let rim = |call: &Call| of(call, "lone station that would not be alone");
    let silent = with_another(heard_in_the_corner(99, (-20, 0), 100), (-70, -70));
    assert_eq!(but_for(&silent), [0]);
    assert_eq!(but_for(&with_another(silent.clone(), (-70, -70))), [1]);
    assert_eq!(but_for(&with_another(silent, (-30, 0))), [2]);
    let mut same = with_another(heard_in_the_corner(99, (-20, 0), 0), (-70, -70));
    assert_eq!(but_for(&same), [0; 0], "D is 0");
    same.value[0] = 100;
    same.rule = Some(1);
    assert_eq!(but_for(&same), [0; 0], "rule 1");
    assert_eq!(rim(&with_another(heard_in_the_corner(100, (-20, 0), 100), (-60, -80))), [0]);
    assert_eq!(rim(&with_another(heard_in_the_corner(100, (-20, 0), 100), (-60, -81))), [0; 0]);
}

#[test]
fn rows_that_do_not_count_are_told_apart() {
    let by_verdict = |change: &dyn Fn(&mut Call)| {
        let mut call = with_another(heard_in_the_corner(60, (-20, 0), 100), (-30, 0));
        change(&mut call);
        of(&call, "row inside beside")
    };
    assert_eq!(by_verdict(&|_| ()), [0; 0]);
    assert_eq!(by_verdict(&|call| call.value[1] = MISSING), [1]);
    assert_eq!(by_verdict(&|call| call.until[1] = 1_000), [2]);
    assert_eq!(by_verdict(&|call| call.observed[1] = 1_001), [3]);
    assert_eq!(by_verdict(&|call| call.observed[1] = 939), [4]);
    assert_eq!(by_verdict(&|call| (call.x[1], call.radius[0]) = (-257, 258)), [5]);
    assert_eq!(by_verdict(&|call| call.value[1] = 201), [11]);
    let late = |call: &mut Call| {
        (call.scans, call.radius, call.limit) = (2, vec![60; 2], vec![300, 200]);
        call.value[1] = 201;
    };
    assert_eq!(by_verdict(&late), [12]);
    assert_eq!(by_verdict(&|call| (call.value[1], call.x[1]) = (MISSING, -60)), [0; 0], "outside");
}

#[test]
fn lone_stations_along_the_wind_are_told_apart() {
    let along = |wind: (i32, i32), mode| {
        let mut call = heard_in_the_corner(60, (-20, 0), 100);
        call.winds = Some(Winds { u: vec![wind.0], v: vec![wind.1] });
        call.mode = mode;
        of(&call, "lone station in mode 1")
    };
    assert_eq!((along((1, 0), 1), along((0, 1), 1)), (vec![1], vec![0]));
    assert_eq!((along((0, 0), 1), along((1, 0), 0)), (vec![0], vec![]));
}

#[test]
fn requests_are_told_from_rule_1() {
    let names = ["request unlike itself under rule 1 (", "window unlike", "cut under rule 2"];
    let of = |call: &Call, ends: [u32; 4]| {
        let window = Window::new(ends[0], ends[1], ends[2], ends[3]);
        let sorts = of_accepted(call, &run(call), &[window]);
        names.map(|name| numbers(&sorts, name))
    };
    // The reach is 1.
    let call = heard_in_the_corner(60, (-20, 0), 100);
    assert_eq!(of(&call, [0, 1, 0, 1]), [vec![0], vec![0], vec![0]]);
    assert_eq!(of(&call, [1, 1, 0, 0]), [vec![0], vec![], vec![1]], "in the cut alone");
    assert_eq!(of(&call, [5, 5, 5, 5]), [vec![0], vec![], vec![]]);
    // Two stations are inside at column 2, and one of them is outside the cut of column 0.
    let mut two = heard_in_the_corner(60, (64, 0), 100);
    two = with_another(two, (70, 0));
    assert_eq!(of(&two, [0, 0, 0, 0])[2], [2]);
    assert_eq!(of(&two, [1, 1, 0, 0])[2], [1], "both are in the cut; column 2 hears one alone");
    let sorts = told(&call);
    assert_eq!(numbers(&sorts, "request unlike itself under rule 1, with smoothing"), [0]);
    assert_eq!(numbers(&sorts, "request unlike itself under rule 1, of so many"), [1]);
    // On the grid D is 100 in the first scan. In the second it is 0 under rule 1; under
    // rule 2 it is 100 - 89, which a limit of 5 rejects.
    let mut rejected = heard_in_the_corner(60, (0, 20), 100);
    (rejected.scans, rejected.radius, rejected.limit) = (2, vec![60; 2], vec![200, 5]);
    assert_eq!(of(&rejected, [0, 0, 0, 0])[..2], [vec![0, 1, 2, 3], vec![0, 1]]);
}

#[test]
fn bad_rules_are_told_apart() {
    let told = |rule: u32, change: fn(&mut Call)| {
        let (call, refusal) = refused(|call| {
            call.rule = Some(rule);
            change(call);
        });
        let sorts = of_refused(&call, &refusal);
        ["refusal 5 by the rule", "bad rule with"].map(|name| numbers(&sorts, name))
    };
    let alone = [0, 3, u32::MAX, 257, 65_538, (1 << 31) + 1, 4, 256, 1 << 31];
    assert_eq!(alone.map(|rule| told(rule, |_| ())[0][0]), [0, 1, 2, 3, 3, 3, 4, 4, 4]);
    assert_eq!(told(0, |call| call.grid_len = 1), [vec![], vec![0]]);
    assert_eq!(told(0, |call| call.y.push(0)), [vec![], vec![1]]);
    assert_eq!(told(0, |call| call.scans = 0), [vec![], vec![2]]);
    assert_eq!(told(0, |call| call.mode = 2), [vec![], vec![3]]);
    assert_eq!(told(0, |call| call.radius[0] = 0), [vec![], vec![4]]);
    assert_eq!(told(0, |call| call.first_guess[0] = MISSING), [vec![], vec![5]]);
    assert_eq!(told(0, |call| call.until[0] = 0), [vec![], vec![6]]);
    assert_eq!(told(2, |call| call.scans = 0), [const { vec![] }; 2], "the rule is good");
    assert_eq!(told(0, |call| call.nx = 1), [const { vec![] }; 2], "refused before");
}

#[test]
fn bad_lines_are_told_apart() {
    let told = |text: &str| {
        let refusal = parse(text.as_bytes()).err();
        let sorts = refusal.map(|refusal| of_text(text.as_bytes(), &refusal)).unwrap_or_default();
        numbers(&sorts, "refusal 9 at the line")
    };
    let with = |line: &str| told(&REQUEST.replacen("scans=", &format!("{line}scans="), 1));
    let values = ["0", "3", "12", "01", "-1", "+2", "", "two", "4294967297", "1,1", "2\r"];
    for (sort, value) in (0..).zip(values) {
        assert_eq!(with(&format!("rule={value}\n")), [sort], "{value}");
    }
    assert_eq!((with("rule=4294967295\n"), with("rule=-0\n")), (vec![2], vec![4]));
    for key in ["Rule=1\n", "rules=1\n", "rul=2\n", " rule=2\n", "role=2\n"] {
        assert_eq!(with(key), [11], "{key}");
    }
    let moved = |old: &str, new: &str| told(&REQUEST.replacen(old, new, 1));
    assert_eq!(moved("smooth=", "rule=1\nsmooth="), [12]);
    assert_eq!(moved("age=", "rule=1\nage="), [12]);
    assert_eq!(moved("scan=", "rule=1\nscan="), [13]);
    assert_eq!(with("rule=1\nrule=1\n"), [14]);
    assert_eq!(moved("grid=", "rule=1\ngrid="), [15]);
    assert_eq!(told(&format!("{REQUEST}rule=1\n")), [15]);
    assert_eq!(told("grid=3,3\ntime=1000\nsmooth=0\nrule=2"), [16]);
    assert_eq!((with("rule=2\n"), with("x\n"), told("")), (vec![], vec![], vec![]));
}

#[test]
fn every_sort_of_a_rule_has_a_floor() {
    let common = 4 + 4 + 8 + 3 + 1 + 13 + 2 + 2 + 4 + 2 + 6;
    let (of_modes, refused) = (6 + 2, 5 + 7);
    assert_eq!(held(floors()), common + of_modes + refused);
    assert_eq!(held(window_floors()), common + of_modes + refused + 2 + 3);
    assert_eq!(held(text_floors()), common + 3 + 17);
    assert_eq!((held(real_floors()), held(real_text_floors())), (4, 2));
}
