//! The sorts of buddy checks are told apart, and each has its floor.

use crate::buddies::along_a_line;
use crate::sorts::{held, numbers};
use crate::{changed, refused, sample, REQUEST};
use second::buddy_sorts::{
    floors, of_accepted, of_refused, of_text, real_floors, real_text_floors, text_floors,
    window_floors,
};
use second::call::{Buddy, Call, Window};
use second::generate::push_station;
use second::scheme::run;
use second::sorts::Sort;
use second::text::parse;
use second::units::MISSING;

fn told(call: &Call) -> Vec<Sort> {
    of_accepted(call, &run(call), &[])
}

fn of(call: &Call, name: &str) -> Vec<u32> {
    numbers(&told(call), name)
}

/// The sorts under a name of stations along a line.
fn of_line(check: (i32, i32), stations: &[(i32, i32)], name: &str) -> Vec<u32> {
    of(&along_a_line(check, stations), name)
}

#[test]
fn checks_are_told_apart() {
    let given = |buddy| {
        let call = changed(|call| call.buddy = buddy);
        ["accepted request with the buddy", "accepted request with the check", "accepted check"]
            .map(|name| of(&call, name))
    };
    let off = |radius, limit| Some(Buddy { on: false, ..Buddy::on(radius, limit) });
    assert_eq!(given(None), [vec![0], vec![], vec![]]);
    assert_eq!(given(off(1, 0)), [vec![1], vec![], vec![]]);
    assert_eq!(given(off(0, 0)), [vec![2], vec![], vec![]]);
    assert_eq!(given(off(1, -1)), [vec![2], vec![], vec![]]);
    assert_eq!(given(Some(Buddy::on(2, 1))), [vec![3], vec![0], vec![]]);
    assert_eq!(given(Some(Buddy::on(1, 0))), [vec![3], vec![0], vec![0, 2]]);
    assert_eq!(given(Some(Buddy::on(512, 2_000_000))), [vec![3], vec![0], vec![1, 3]]);
    let moded = |rule, mode| {
        let on = |call: &mut Call| {
            (call.buddy, call.rule, call.mode) = (Some(Buddy::on(2, 1)), rule, mode);
        };
        of(&changed(on), "accepted request with the check")
    };
    let all = [moded(None, 0), moded(Some(2), 0), moded(Some(1), 1), moded(Some(2), 1)];
    assert_eq!(all.concat(), [0, 1, 2, 3]);
    assert_eq!(told(&sample()).len(), 1, "no more is said without one");
}

#[test]
fn scans_are_told_apart() {
    let names = ["request with a station that is set", "request with stations set", "post set"];
    let of = |call: &Call| names.map(|name| of(call, name));
    assert_eq!(of(&along_a_line((50, 9), &[(0, 0), (5, 100)])), [const { vec![] }; 3]);
    let mut later = along_a_line((50, 60), &[(-10, 100), (0, 100), (5, 100)]);
    (later.scans, later.radius, later.limit) = (2, vec![64; 2], vec![1_000; 2]);
    assert_eq!(of(&later), [vec![2], vec![], vec![1]]);
    // Far from them another is set aside in the first scan.
    [(500, 300), (505, 0), (510, 0)].iter().for_each(|(x, d)| push_station(&mut later, *x, 0, *d));
    later.buddy = Some(Buddy::on(50, 160));
    later.value[..3].fill(300);
    later.fit_results();
    assert_eq!(of(&later), [vec![1, 2], vec![0], vec![1]]);
}

#[test]
fn those_set_aside_are_told_apart() {
    let near = [(100, 500), (110, 10), (120, 20), (130, 30)];
    let count = |limit| of_line((50, limit), &near, "station set aside by");
    let group = |limit| of_line((50, limit), &near, "station set aside (alone");
    assert_eq!((count(400), group(400)), (vec![1], vec![0]));
    assert_eq!((count(480), group(480)), (vec![], vec![]));
    assert_eq!(group(173), [1], "the first two");
    assert_eq!(group(0), [2, 3], "all of them");
    assert_eq!(of_line((50, 299), &[(100, 0), (140, 300), (180, 0)], "station set aside by"), [0]);
    let five = [(100, 500), (100, 0), (100, 0), (100, 0), (100, 0), (101, 0)];
    assert_eq!(of_line((50, 400), &five, "station set aside by"), [3]);
    let place = |stations| of_line((50, 40), stations, "station set aside (by others");
    assert_eq!(place(&[(7, 50), (7, 0), (7, 0), (300, 0)]), [0]);
    assert_eq!(place(&[(7, 50), (7, 0), (7, 0)]), [0, 1]);
    assert_eq!(place(&[(7, 50), (7, 0), (8, 0)]), [0; 0]);
    let side = |d| of_line((50, 60), &[(7, d), (7, 0), (7, 0)], "station set aside with");
    assert_eq!((side(100), side(-100), side(60)), (vec![0], vec![1], vec![]));
}

#[test]
fn narrow_verdicts_are_told_apart() {
    let exact = |limit, stations| of_line((50, limit), stations, "station with n·D from");
    assert_eq!(exact(50, &[(7, 50), (7, 0), (7, 0)]), [0]);
    assert_eq!(exact(50, &[(7, 50), (7, 0), (7, -1)]), [2]);
    assert_eq!(exact(50, &[(7, 50), (7, 0), (7, 0), (7, 0)]), [1]);
    assert_eq!(exact(50, &[(7, 51), (7, 2), (7, 0), (7, 0)]), [3], "153 - 2");
    assert_eq!(exact(50, &[(7, 51), (7, 0)]), [0; 0], "one neighbour");
    let kept = |stations| of_line((50, 50), stations, "station that differs by more");
    assert_eq!(kept(&[(7, 51)]), [0]);
    assert_eq!(kept(&[(7, 51), (7, 0)]), [1]);
    assert_eq!(kept(&[(7, 50), (7, 0), (300, 50)]), [0; 0]);
}

#[test]
fn other_ways_are_told_apart() {
    let otherwise = |check: (i32, i32), stations: &[(i32, i32)]| {
        of_line(check, stations, "station with another verdict")
    };
    assert_eq!(otherwise((50, 50), &[(7, 101), (7, 0)]), [0, 3], "one neighbour, and itself");
    assert_eq!(otherwise((50, 50), &[(7, 76), (7, 0), (7, 0)]), [1, 2], "152 past 150; 76 past 50");
    assert_eq!(otherwise((50, 50), &[(7, 51), (7, 0), (7, 0)]), [1, 2, 3], "102, up to 150");
    // The mean of 0 and -1 is cut to 0, floored to -1 and rounded to -1.
    assert_eq!(otherwise((50, 50), &[(7, 50), (7, 0), (7, -1)]), [1, 2, 3, 4]);
    assert_eq!(otherwise((50, 50), &[(7, -50), (7, 0), (7, 1)]), [1, 2, 3, 4, 5]);
    assert_eq!(otherwise((50, 50), &[(7, 50), (7, 0), (7, 0)]), [2, 7], "at n·L");
    let rim = |x| otherwise((50, 50), &[(7, 76), (7, 0), (x, 0)]);
    assert_eq!(rim(57), [0, 8], "at B²");
    assert_eq!(rim(58), [0], "past it");
    let mut square = along_a_line((50, 50), &[(7, 76), (7, 0), (50, 0)]);
    square.y[2] = 40;
    assert_eq!(of(&square, "station with another verdict"), [0, 9]);
    let posts = [(-7, 76), (-7, 0), (-70, 0)];
    assert_eq!(otherwise((50, 50), &posts), [0, 10], "by nearest places");
}

#[test]
fn orders_are_told_apart() {
    let order = |check: (i32, i32), stations: &[(i32, i32)]| {
        of_line(check, stations, "stations with other verdicts")
    };
    assert_eq!(order((50, 299), &[(100, 0), (140, 300), (180, 0)]), [0; 0]);
    // Whoever goes first leaves the two others with one neighbour each.
    assert_eq!(order((81, 149), &[(100, 0), (140, 300), (180, 0)]), [0, 1]);
    // Without the 500 the 10 stays.
    assert_eq!(order((50, 173), &[(100, 500), (110, 10), (120, 20), (130, 30)]), [0]);
    assert_eq!(order((50, 173), &[(100, 30), (110, 20), (120, 10), (130, 500)]), [1]);
    assert_eq!(order((50, 50), &[(7, 76), (7, 0), (7, 1_001)]), [3], "before the E test");
}

#[test]
fn rows_that_are_no_neighbours_are_told_apart() {
    let by_verdict = |change: &dyn Fn(&mut Call)| {
        let mut call = along_a_line((50, 50), &[(7, 76), (7, 0), (7, 0)]);
        change(&mut call);
        of(&call, "row near a station")
    };
    assert_eq!(by_verdict(&|_| ()), [0; 0]);
    assert_eq!(by_verdict(&|call| call.value[2] = MISSING), [1]);
    assert_eq!(by_verdict(&|call| call.until[2] = 1_000), [2]);
    assert_eq!(by_verdict(&|call| call.observed[2] = 1_001), [3]);
    assert_eq!(by_verdict(&|call| call.observed[2] = 939), [4]);
    assert_eq!(by_verdict(&|call| call.x = vec![-250, -256, -257]), [5]);
    assert_eq!(by_verdict(&|call| call.value[2] = 1_001), [11]);
    let mut call = along_a_line((50, 9), &[(-100, 10), (-60, 30), (-60, 0), (-60, 0)]);
    (call.y[2], call.y[3]) = (45, -45);
    push_station(&mut call, -140, 0, 0);
    push_station(&mut call, -145, 0, 0);
    (call.scans, call.radius, call.limit) = (2, vec![300; 2], vec![1_000; 2]);
    call.fit_results();
    assert_eq!(of(&call, "row near a station"), [21]);
    let again = "once the second is gone, the first would go in the same scan";
    assert_eq!(of(&call, "stations with other verdicts"), [1, 2], "{again}");
}

#[test]
fn requests_are_told_from_those_without_a_check() {
    let names =
        ["request unlike itself without the check (in grid", "window unlike itself without"];
    let others = [
        "request unlike itself without the check, with",
        "request unlike itself without the check (in mode",
    ];
    let of = |call: &Call, ends: [u32; 4]| {
        let window = Window::new(ends[0], ends[1], ends[2], ends[3]);
        let sorts = of_accepted(call, &run(call), &[window]);
        names.map(|name| numbers(&sorts, name))
    };
    let call = along_a_line((70, 60), &[(0, 100), (64, 0), (64, 0)]);
    assert_eq!(of(&call, [0, 0, 0, 0]), [vec![0, 1], vec![0, 1]]);
    assert_eq!(of(&call, [5, 5, 0, 0]), [vec![0, 1], vec![]]);
    let sorts = told(&call);
    assert_eq!(others.map(|name| numbers(&sorts, name)), [vec![0], vec![0]]);
    let mut kept = call;
    kept.buddy = Some(Buddy::on(70, 100));
    assert_eq!(of(&kept, [0, 0, 0, 0]), [const { vec![] }; 2]);
}

/// R is 30 and B 50, so the reach is 2 steps. The first is heard by the point at 320, and
/// differs from two others, one of which is 75 units away from that.
#[test]
fn reaches_that_are_too_short_are_told() {
    let told = |smooth, ends: [u32; 4]| {
        let mut call = along_a_line((50, 40), &[(346, 100), (320, 0), (395, 0)]);
        call.smooth = smooth;
        let window = Window::new(ends[0], ends[1], ends[2], ends[3]);
        numbers(&of_accepted(&call, &run(&call), &[window]), "window that a cut")
    };
    // R alone, B alone and the greater are one step, and so is R + B rounded down.
    assert_eq!(told(false, [5, 5, 0, 0]), [0, 1, 2, 5, 6]);
    assert_eq!(told(false, [4, 4, 0, 0]), [0; 0], "not heard");
    assert_eq!(told(false, [0, 8, 0, 7]), [0; 0], "the whole grid");
}

#[test]
fn bad_checks_are_told_apart() {
    let told = |buddy: Buddy, change: fn(&mut Call)| {
        let (call, refusal) = refused(|call| {
            call.buddy = Some(buddy);
            change(call);
        });
        let sorts = of_refused(&call, &refusal);
        ["refusal 6 at place 6", "bad check with", "check that is off"]
            .map(|name| numbers(&sorts, name))
    };
    let alone = [(0, 0), (513, 0), (-1, 0), (514, 0), (1, -1), (1, 2_000_001), (1, -2), (0, -1)];
    for (sort, (radius, limit)) in (0..).zip(alone) {
        let bad = Buddy::on(radius, limit);
        assert_eq!(told(bad, |_| ()), [vec![sort], vec![], vec![]], "{radius},{limit}");
    }
    let bad = Buddy::on(0, 0);
    assert_eq!(told(bad, |call| call.grid_len = 1)[1], [0]);
    assert_eq!(told(bad, |call| call.y.push(0))[1], [1]);
    assert_eq!(told(bad, |call| call.scans = 0)[1], [2]);
    assert_eq!(told(bad, |call| call.mode = 2)[1], [3]);
    assert_eq!(told(bad, |call| call.rule = Some(3))[1], [4]);
    assert_eq!(told(bad, |call| call.radius[0] = 0)[1], [5]);
    assert_eq!(told(bad, |call| call.first_guess[0] = MISSING)[1], [6]);
    assert_eq!(told(bad, |call| call.until[0] = 0)[1], [7]);
    let off = Buddy::default();
    assert_eq!(told(off, |call| call.radius[0] = 0), [vec![], vec![], vec![0]]);
    assert_eq!(told(off, |call| call.first_guess[0] = MISSING)[2], [1]);
    assert_eq!(told(off, |call| call.until[0] = 0)[2], [2]);
    assert_eq!(told(Buddy::on(1, 0), |call| call.until[0] = 0), [const { vec![] }; 3], "good");
}

#[test]
fn bad_lines_are_told_apart() {
    let told = |text: &str| {
        let refusal = parse(text.as_bytes()).err();
        let sorts = refusal.map(|refusal| of_text(text.as_bytes(), &refusal)).unwrap_or_default();
        numbers(&sorts, "refusal 9 at the line")
    };
    let moved = |old: &str, new: &str| told(&REQUEST.replacen(old, new, 1));
    let with = |line: &str| moved("row=", &format!("{line}row="));
    let values = ["9", "9,9,9", "9,", "09,9", "9,-0", "+9,9", "9,x", "9, 9", "9,2147483648"];
    for (sort, value) in (0..).zip(values) {
        assert_eq!(with(&format!("buddy={value}\n")), [sort], "{value}");
    }
    assert_eq!((with("buddy=\n"), with("buddy=9,1e3\n")), (vec![2], vec![6]));
    for key in ["Buddy=9,9\n", "buddys=9,9\n", "budy=9,9\n", " buddy=9,9\n", "body=9,9\n"] {
        assert_eq!(with(key), [9], "{key}");
    }
    assert_eq!(moved("scans=", "buddy=9,9\nscans="), [10]);
    assert_eq!(moved("scan=", "buddy=9,9\nscan="), [11]);
    assert_eq!(moved("scans=1\n", "scans=2\nscan=99,9\nbuddy=9,9\n"), [11], "between scans");
    assert_eq!(moved("640\nrow=", "640\nbuddy=9,9\nrow="), [12]);
    assert_eq!(moved("stations=", "buddy=9,9\nstations="), [13]);
    assert_eq!(moved("st=", "buddy=9,9\nst="), [14]);
    assert_eq!(told(&format!("{REQUEST}buddy=9,9\n")), [14]);
    assert_eq!(with("buddy=9,9\nbuddy=9,9\n"), [15]);
    assert_eq!(moved("grid=", "buddy=9,9\ngrid="), [16]);
    assert_eq!(told("grid=3,3\ntime=1\nsmooth=0\nscans=1\nscan=9,9\nbuddy=9,9"), [17]);
    assert_eq!((with("buddy=9,9\n"), with("x\n"), told("")), (vec![], vec![], vec![]));
}

#[test]
fn good_lines_where_a_scan_is_due_are_told_apart() {
    let told = |scans: &str, line: &str| {
        let text = REQUEST.replacen("scans=1\n", scans, 1);
        let text = text.replacen("row=", &format!("{line}row="), 1);
        let refusal = parse(text.as_bytes()).err();
        let sorts = refusal.map(|refusal| of_text(text.as_bytes(), &refusal)).unwrap_or_default();
        numbers(&sorts, "refusal 9 at the line")
    };
    for value in ["9,9", "0,-1", "2147483647,-2147483648"] {
        let line = format!("buddy={value}\n");
        assert_eq!(told("scans=2\n", &line), [18], "{value}");
        assert_eq!(told("scans=1\n", &line), [0; 0], "{value}, which is in form");
    }
    assert_eq!(told("scans=2\n", "buddy=9,2147483648\n"), [8], "by its value");
    for value in ["2147483648,9", "-2147483649,9", "9,99999999999999999999"] {
        assert_eq!(told("scans=1\n", &format!("buddy={value}\n")), [8], "{value}");
    }
    assert_eq!(told("scans=1\n", "buddy=9,-09\n"), [3], "and not past i32");
}

#[test]
fn every_sort_of_a_check_has_a_floor() {
    let company = 4 + 4 + 2 + 4 + 2 + 2 + 2 + 16 + 11 + 4;
    let common = 4 + 6 + 2 + 3 + 2 + company;
    let of_calls = 4 + 4 + 4 + 8 + 8 + 3;
    assert_eq!(held(floors()), common + of_calls);
    assert_eq!(held(window_floors()), common + of_calls + 2 + 7);
    assert_eq!(held(text_floors()), common + 2 + 2 + 2 + 19);
    assert_eq!((held(real_floors()), held(real_text_floors())), (6, 6));
}
