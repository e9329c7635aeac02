//! The sorts of winds and modes are told apart, and each has its floor.

use crate::sorts::{held, numbers};
use crate::{changed, lone_station, refused, sample};
use second::call::{Call, Window, Winds};
use second::generate::push_station;
use second::scheme::run;
use second::sorts::Sort;
use second::units::MISSING;
use second::wind_sorts::{floors, of_accepted, of_refused, window_floors};

/// A grid of 9 by 8 in mode 1, with a station of D = 60 in one scan that only the
/// first point is near to.
fn heard_in_the_corner(radius: i32, (x, y): (i32, i32), (u, v): (i32, i32)) -> Call {
    let mut call = lone_station(9, 8, 640, x, y, 700);
    (call.radius, call.mode) = (vec![radius], 1);
    call.winds = Some(Winds { u: vec![u], v: vec![v] });
    call
}

fn told(call: &Call) -> Vec<Sort> {
    of_accepted(call, &run(call), &[])
}

#[test]
fn modes_and_winds_are_told_apart() {
    let given = |mode, winds: Option<Winds>| {
        numbers(&told(&changed(|call| (call.mode, call.winds) = (mode, winds))), "accepted")
    };
    let some = || Some(Winds { u: vec![MISSING, MISSING, 0], v: vec![MISSING, MISSING, 0] });
    assert_eq!((given(0, None), given(1, None)), (vec![0], vec![1]));
    let missing = || Some(Winds::missing(3));
    assert_eq!((given(0, missing()), given(1, missing())), (vec![2], vec![3]));
    assert_eq!((given(0, some()), given(1, some())), (vec![4], vec![5]));
}

#[test]
fn winds_of_stations_are_told_apart() {
    let of = |mode, wind| {
        let call = Call { mode, ..heard_in_the_corner(96, (-5, -5), wind) };
        [
            "wind of a station that takes part, in mode 0",
            "wind of a station that takes part, in mode 1",
        ]
        .map(|name| numbers(&told(&call), name))
    };
    assert_eq!(of(0, (0, 0)), [vec![1], vec![]]);
    assert_eq!(of(1, (0, 0)), [vec![], vec![1]]);
    assert_eq!((of(1, (-3, 0)), of(1, (0, 100))), ([vec![], vec![2]], [vec![], vec![3]]));
    let strongest = [(100, 100), (100, -100), (-100, 100), (-100, -100)];
    assert_eq!(strongest.map(|wind| of(0, wind)[0][0]), [4, 5, 6, 7]);
    assert_eq!((of(1, (100, 99)), of(0, (1, 1))), ([vec![], vec![8]], [vec![8], vec![]]));
    let mut missing = heard_in_the_corner(96, (-5, -5), (3, 4));
    push_station(&mut missing, 0, 0, 700);
    assert_eq!(numbers(&told(&missing), "wind of a station"), [0, 8]);
    missing.value[1] = MISSING;
    assert_eq!(numbers(&told(&missing), "wind of a station"), [8], "it takes no part");
}

#[test]
fn winds_are_told_apart_by_how_they_lie() {
    let lies = |place, wind| {
        let call = heard_in_the_corner(96, place, wind);
        let round = Call { mode: 0, ..call.clone() };
        let name = "station inside the radius with a wind, in mode ";
        let [in_0, in_1] = [("0", &round), ("1", &call)]
            .map(|(mode, call)| numbers(&told(call), &format!("{name}{mode}")));
        assert_eq!(in_0, in_1);
        in_1
    };
    assert_eq!(lies((-30, -40), (3, 4)), [0]);
    assert_eq!(lies((-30, -40), (-6, -8)), [0]);
    assert_eq!(lies((-30, -40), (4, -3)), [1]);
    assert_eq!(lies((-30, -40), (4, 3)), [2]);
    assert_eq!(lies((-30, -40), (0, 0)), [0; 0], "calm");
    assert_eq!(lies((-30, -40), (MISSING, MISSING)), [0; 0], "missing");
    assert_eq!(lies((-96, 0), (1, 0)), [0; 0], "on the rim");
    // The points beside it hear it too, along the wind and at right angles to it.
    assert_eq!(lies((0, 0), (1, 0)), [0, 1, 2, 3]);
}

#[test]
fn support_by_the_wind_alone_is_told_apart() {
    let gained = |call: &Call| numbers(&told(call), "point with support that only");
    // 70² + 70² is 99² - 1.
    let call = heard_in_the_corner(99, (-70, -70), (1, 1));
    assert_eq!(gained(&call), [0]);
    assert_eq!(gained(&Call { mode: 0, ..call.clone() }), [0; 0]);
    assert_eq!(gained(&heard_in_the_corner(99, (-70, -70), (1, -1))), [0; 0]);
    assert_eq!(gained(&heard_in_the_corner(99, (-70, -69), (1, 1))), [0; 0], "it has a weight");
    let mut two = call.clone();
    push_station(&mut two, -5, -5, 700);
    two.fit_results();
    assert_eq!(gained(&two), [0; 0], "another supports");
    let mut later = call;
    (later.scans, later.radius, later.limit) = (2, vec![128, 99], vec![60; 2]);
    assert_eq!(gained(&later), [1]);
    assert_eq!(numbers(&told(&later), "request unlike itself"), [0, 1]);
}

#[test]
fn stations_outside_the_radius_are_told_apart() {
    let outside = |place, wind| {
        numbers(&told(&heard_in_the_corner(100, place, wind)), "station inside its effective")
    };
    assert_eq!(outside((-60, -80), (3, 4)), [0]);
    assert_eq!(outside((-61, -80), (3, 4)), [1]);
    assert_eq!(outside((-60, -80), (4, -3)), [0; 0]);
    assert_eq!(outside((-100, -100), (1, 1)), [0; 0], "√2 R away");
}

#[test]
fn stretched_weights_are_told_apart() {
    let names = ["stretched weight with", "stretched weight that", "stretched weight above"];
    let of = |radius, place, wind| {
        let sorts = told(&heard_in_the_corner(radius, place, wind));
        names.map(|name| numbers(&sorts, name))
    };
    // d2 is 5,120. 5,652.17; as the round one; 5,283.02, or 5,282.84 with 16,588 in place of
    // 16,588.8; 3,670.88.
    assert_eq!(of(96, (-64, -32), (2, 1)), [vec![], vec![0], vec![0]]);
    assert_eq!(of(96, (-64, -32), (1, -2)), [vec![], vec![0], vec![]]);
    assert_eq!(of(96, (-64, -32), (1, 0)), [vec![], vec![0, 1], vec![0]]);
    assert_eq!(of(96, (-64, -32), (0, 1)), [vec![], vec![0, 2], vec![0]]);
    // 20,000 and 5,000: 6,000.
    assert_eq!(of(100, (-50, -50), (1, 1)), [vec![], vec![], vec![1]]);
    let call = heard_in_the_corner(1_024, (-256, -256), (100, 100));
    assert_eq!(numbers(&told(&call), names[0]), [0, 1]);
    let weak = heard_in_the_corner(1_024, (-256, -256), (1, 1));
    assert_eq!(numbers(&told(&weak), names[0]), [0; 0]);
}

#[test]
fn windows_in_mode_1_are_told_from_mode_0() {
    let mut call = heard_in_the_corner(96, (0, 0), (1, 0));
    push_station(&mut call, 64, 64, 600);
    push_station(&mut call, 512, 448, 700);
    call.fit_results();
    let of = |call: &Call, ends: [u32; 4]| {
        let window = Window::new(ends[0], ends[1], ends[2], ends[3]);
        let sorts = of_accepted(call, &run(call), &[window]);
        ["request unlike itself", "window unlike", "cut in mode 1"]
            .map(|name| numbers(&sorts, name))
    };
    assert_eq!(of(&call, [0, 1, 0, 1]), [vec![0], vec![0], vec![]]);
    assert_eq!(of(&call, [5, 6, 0, 1]), [vec![0], vec![], vec![]], "far from both");
    assert_eq!(of(&call, [8, 8, 7, 7]), [vec![0], vec![], vec![0]], "row 2 is the cut's row 0");
    assert_eq!(of(&Call { mode: 0, ..call }, [8, 8, 7, 7]), [const { vec![] }; 3]);
}

/// The sorts of case (i) with something changed, which is refused.
fn told_refused(change: impl FnOnce(&mut Call)) -> Vec<Sort> {
    let (call, refusal) = refused(change);
    of_refused(&call, &refusal)
}

#[test]
fn wind_columns_are_told_apart() {
    let told = |u: usize, v: usize| {
        let winds = Winds { u: vec![0; u], v: vec![0; v] };
        let sorts = told_refused(|call| call.winds = Some(winds));
        ["refusal 4 by one", "refusal 4 by both"].map(|name| numbers(&sorts, name))
    };
    assert_eq!((told(2, 3), told(3, 2)), ([vec![0], vec![]], [vec![1], vec![]]));
    assert_eq!((told(4, 3), told(3, 4)), ([vec![2], vec![]], [vec![3], vec![]]));
    assert_eq!((told(0, 3), told(3, 0)), ([vec![4], vec![]], [vec![5], vec![]]));
    assert_eq!((told(513, 3), told(3, 600)), ([vec![6], vec![]], [vec![7], vec![]]));
    assert_eq!(
        (told(2, 2), told(4, 4), told(0, 0)),
        ([vec![], vec![0]], [vec![], vec![1]], [vec![], vec![2]])
    );
    assert_eq!(told(2, 4), [const { vec![] }; 2], "each in its own way");
    let others = told_refused(|call| {
        call.winds = Some(Winds::missing(4));
        call.y.pop();
    });
    assert_eq!(others, [], "other columns are at fault too");
}

#[test]
fn bad_modes_are_told_apart() {
    let told = |mode, change: fn(&mut Call)| {
        let sorts = told_refused(|call| {
            call.mode = mode;
            change(call);
        });
        ["refusal 5 by the mode", "bad mode with"].map(|name| numbers(&sorts, name))
    };
    let alone = [2, 3, u32::MAX, 256].map(|mode| told(mode, |_| ())[0][0]);
    assert_eq!(alone, [0, 1, 2, 3]);
    assert_eq!(told(2, |call| call.y.push(0)), [vec![], vec![0]]);
    assert_eq!(told(2, |call| call.scans = 0), [vec![], vec![1]]);
    assert_eq!(told(2, |call| call.radius[0] = 0), [vec![], vec![2]]);
    assert_eq!(told(2, |call| call.first_guess[0] = MISSING), [vec![], vec![3]]);
    assert_eq!(told(2, |call| call.until[0] = 0), [vec![], vec![4]]);
    assert_eq!(told(1, |call| call.scans = 0), [const { vec![] }; 2], "the mode is good");
    assert_eq!(told(2, |call| call.nx = 1), [const { vec![] }; 2], "refused before");
}

#[test]
fn bad_winds_are_told_apart() {
    let told = |mode: u32, row: usize, wind: (i32, i32), change: fn(&mut Call)| {
        let sorts = told_refused(|call| {
            call.mode = mode;
            let winds = call.winds_mut();
            (winds.u[row], winds.v[row]) = wind;
            change(call);
        });
        let by_mode = format!("refusal 8 by the wind alone, in mode {mode}");
        [&by_mode[..], "refusal 8 by the wind alone at", "bad wind and", "bad wind in"]
            .map(|name| numbers(&sorts, name))
    };
    let winds = [(MISSING, 0), (0, MISSING), (101, 0), (-101, 0), (100, 101), (0, -101), (102, 0)];
    for mode in [0, 1] {
        for (sort, wind) in (0..).zip(winds) {
            assert_eq!(told(mode, 1, wind, |_| ()), [vec![sort], vec![1], vec![], vec![]]);
        }
    }
    assert_eq!(told(0, 0, (101, MISSING), |_| ()), [vec![6], vec![0], vec![], vec![]]);
    assert_eq!(told(1, 2, (0, MISSING), |_| ()), [vec![1], vec![1], vec![], vec![2]], "verdict 2");
    assert_eq!(told(1, 1, (0, MISSING), |call| call.x[1] = MISSING)[2], [0]);
    assert_eq!(told(1, 0, (0, MISSING), |call| call.x[1] = MISSING)[2], [1]);
    assert_eq!(told(1, 1, (0, MISSING), |call| call.x[0] = MISSING)[2], [2]);
    assert_eq!(told_refused(|call| call.x[0] = MISSING), [], "no winds");
    assert_eq!(told_refused(|call| (call.winds_mut().u[0], call.x[0]) = (MISSING, MISSING)), []);
}

#[test]
fn every_sort_of_a_wind_has_a_floor() {
    let accepted = 6 + 2 * 9 + 2 * 4 + 4 * 2 + 2 * 3;
    let refused = 8 + 3 + 4 + 5 + 2 * 7 + 2 + 3 + 5;
    assert_eq!(held(floors()), accepted + refused);
    assert_eq!(held(window_floors()), accepted + refused + 2 + 1);
    assert!(told(&sample()).len() == 1, "a text is of no sort of wind but one");
}
