//! The buddy check: request 7 worked by hand.

use crate::{changed, lone_station, ANSWER, REQUEST};
use second::buddy::Neighbours;
use second::call::{Analysis, Buddy, Call, Window};
use second::generate::push_station;
use second::impossible::moved_by_check;
use second::scan::Accepted;
use second::scheme::{analyse, run};
use second::text::{answer, parse};
use second::units::MISSING;
use second::verdicts::{ended_in, takes_part};
use second::window::{reach, window};
use second::write::{request_text, rerun_form, Style};

/// A grid of 9 by 8 at 0 with stations at places along the bottom line, whose values are
/// what they differ by in the first scan, under a check.
pub fn along_a_line(check: (i32, i32), stations: &[(i32, i32)]) -> Call {
    let mut call = lone_station(9, 8, 0, 0, 0, 0);
    (call.radius, call.limit) = (vec![30], vec![1_000]);
    call.buddy = Some(Buddy::on(check.0, check.1));
    call.x.clear();
    [&mut call.y, &mut call.value].into_iter().for_each(Vec::clear);
    [&mut call.observed, &mut call.from, &mut call.until].into_iter().for_each(Vec::clear);
    stations.iter().for_each(|(x, d)| push_station(&mut call, *x, 0, *d));
    call.fit_results();
    call
}

fn verdicts(check: (i32, i32), stations: &[(i32, i32)]) -> Vec<u8> {
    run(&along_a_line(check, stations)).verdict
}

#[test]
fn a_mast_that_disagrees_with_everyone_near_is_set_aside() {
    let near = [(100, 500), (110, 10), (120, 20), (130, 30)];
    // 3 times 500 less 60 is 1,440; the others: 30 - 550, 60 - 540 and 90 - 530.
    assert_eq!(verdicts((50, 400), &near), [21, 0, 0, 0]);
    assert_eq!(verdicts((50, 480), &near), [0; 4], "1,440 is not more than 3 times 480");
    assert_eq!(verdicts((50, 479), &near), [21, 0, 0, 0]);
    assert_eq!(verdicts((50, 173), &near), [21, 21, 0, 0], "520 is more than 3 times 173");
    assert_eq!(verdicts((50, 174), &near), [21, 0, 0, 0]);
    let mut off = along_a_line((50, 0), &near);
    off.buddy = Some(Buddy { on: false, ..Buddy::on(50, 0) });
    assert_eq!(run(&off).verdict, [0; 4]);
    off.buddy = None;
    assert_eq!(run(&off).verdict, [0; 4]);
}

#[test]
fn one_neighbour_is_not_enough() {
    assert_eq!(verdicts((50, 0), &[(100, 500)]), [0]);
    assert_eq!(verdicts((50, 0), &[(100, 500), (110, -500)]), [0; 2]);
    assert_eq!(verdicts((50, 0), &[(100, 500), (110, -500), (500, 0)]), [0; 3]);
    assert_eq!(verdicts((50, 0), &[(100, 5), (110, 5), (120, 5)]), [0; 3], "all agree");
}

/// The middle one is near both ends, which are not near each other.
#[test]
fn neighbours_are_each_stations_own() {
    let chain = [(100, 0), (140, 300), (180, 0)];
    assert_eq!(verdicts((50, 299), &chain), [0, 21, 0]);
    assert_eq!(verdicts((50, 300), &chain), [0; 3]);
    // With B = 81 all are near: 2 times 0 less 300 is 300, which is 2 times 150.
    assert_eq!(verdicts((81, 150), &chain), [0, 21, 0]);
    assert_eq!(verdicts((81, 149), &chain), [21; 3], "at once");
    assert_eq!(verdicts((80, 149), &chain), [0, 21, 0], "80 units are not below 80");
}

/// Two that agree with each other do not save each other from two others.
#[test]
fn all_are_judged_against_the_same_survivors() {
    let two_and_two = [(100, 0), (105, 0), (110, 90), (115, 90)];
    // 3 times 0 less 180, and 3 times 90 less 90.
    assert_eq!(verdicts((50, 60), &two_and_two), [0; 4]);
    assert_eq!(verdicts((50, 59), &two_and_two), [21; 4]);
}

#[test]
fn neighbours_may_stand_at_the_same_place() {
    assert_eq!(verdicts((1, 10), &[(100, 0), (100, 0), (100, 11)]), [0, 0, 21]);
    assert_eq!(verdicts((1, 10), &[(100, 0), (100, 0), (101, 11)]), [0; 3]);
}

/// True distances count: two posts beyond a corner have the same nearest place.
#[test]
fn posts_are_neighbours_by_where_they_stand() {
    let mut call = along_a_line((50, 60), &[(-10, 0), (-10, 0), (-60, 100)]);
    assert_eq!(run(&call).verdict, [0; 3], "50 units away");
    call.x[2] = -59;
    assert_eq!(run(&call).verdict, [0, 0, 21]);
    call.y = vec![-200, -200, -249];
    assert_eq!(run(&call).verdict, [0; 3], "49 units along both axes");
    call.x[2] = -19;
    assert_eq!(run(&call).verdict, [0, 0, 21], "9² + 49² is 2,482");
    call.x[2] = -20;
    assert_eq!(run(&call).verdict, [0; 3], "10² + 49² is 2,501");
}

#[test]
fn only_survivors_are_neighbours() {
    let near = [(100, 100), (110, 0), (120, 0)];
    let mut call = along_a_line((50, 99), &near);
    assert_eq!(run(&call).verdict, [21, 0, 0]);
    let with = |change: &dyn Fn(&mut Call)| {
        let mut call = call.clone();
        change(&mut call);
        run(&call).verdict
    };
    assert_eq!(with(&|call| call.value[1] = MISSING), [0, 1, 0]);
    assert_eq!(with(&|call| call.until[1] = 1_000), [0, 2, 0]);
    assert_eq!(with(&|call| call.value[1] = -1_001), [0, 11, 0], "rejected in this scan");
    // 3 times 100 less 600 is 300: with the rejected one it would be set aside.
    push_station(&mut call, 130, 0, 1_001);
    call.fit_results();
    assert_eq!(run(&call).verdict, [21, 0, 0, 11]);
    (call.value[0], call.value[3], call.limit[0]) = (0, 1_000, 1_000);
    assert_eq!(run(&call).verdict, [21, 21, 21, 21], "1,000 is past 3 times 99 for all");
    call.limit[0] = 999;
    assert_eq!(run(&call).verdict, [0, 0, 0, 11]);
}

/// All are posts, so that what they differ by stays.
#[test]
fn who_was_set_aside_is_no_neighbour_any_more() {
    let mut call = along_a_line((50, 9), &[(-100, 10), (-60, 30), (-60, 0), (-60, 0)]);
    (call.y[2], call.y[3]) = (45, -45);
    push_station(&mut call, -140, 0, 0);
    push_station(&mut call, -145, 0, 0);
    (call.scans, call.radius, call.limit) = (3, vec![300; 3], vec![1_000; 3]);
    call.fit_results();
    // The second is near the first and the two above and below: 90 - 10. The first is near
    // the second and the two at its left: 30 - 30. Then the second is gone: 20 - 0.
    let whole = run(&call);
    assert_eq!(whole.verdict, [22, 21, 0, 0, 0, 0]);
    assert_eq!(whole.support[0], 7);
    // Without the two the others, which report the first guess, change nothing in the
    // third scan; in the second none but they speak either.
    let one = run(&Call { scans: 1, ..call.clone() });
    assert_eq!(one.verdict, [0, 21, 0, 0, 0, 0]);
    assert_eq!((one.grid, whole.grid[0] > 0), (whole.grid, true));
}

#[test]
fn who_is_set_aside_has_no_weight_in_that_scan() {
    let mut call = along_a_line((50, 60), &[(0, 100), (10, 0), (20, 0)]);
    let analysis = run(&call);
    assert_eq!((analysis.verdict, analysis.grid[0]), (vec![21, 0, 0], 0));
    // Under rule 2 it does not count as inside: the one at 40 is alone with the point at 64.
    (call.x, call.rule) = (vec![60, 40, 20], Some(2));
    (call.value, call.buddy) = (vec![900, 100, 100], Some(Buddy::on(50, 500)));
    // 900 - 576 over 1,476 is 0.2195 for the one 24 units away.
    let lone = run(&call);
    assert_eq!((lone.verdict.clone(), lone.grid[1]), (vec![21, 0, 0], 22));
    assert_eq!(run(&Call { rule: None, ..call }).grid[1], 100);
}

/// A second scan finds the stations on the grid as the first left them; a post it does
/// not.
#[test]
fn a_later_scan_may_set_aside() {
    let mut call = along_a_line((50, 60), &[(-10, 100), (0, 100), (5, 100)]);
    (call.scans, call.radius, call.limit) = (2, vec![64; 2], vec![1_000; 2]);
    let analysis = run(&call);
    assert_eq!(analysis.verdict, [22, 0, 0], "200 - 0 is more than 2 times 60");
    assert_eq!(ended_in(22), Some(1));
}

#[test]
fn verdicts_tell_the_scan() {
    assert_eq!([0, 1, 5, 10].map(ended_in), [None; 4]);
    assert_eq!([11, 16, 21, 26].map(ended_in), [Some(0), Some(5), Some(0), Some(5)]);
    assert_eq!(
        [0, 1, 5, 11, 16, 21, 26].map(takes_part),
        [true, false, false, true, true, true, true]
    );
}

#[test]
fn neighbours_are_counted_and_summed() {
    let call = along_a_line((50, 0), &[(0, 7), (49, 20), (50, 30), (0, -3)]);
    let survivors: Vec<Accepted> =
        (0..4).map(|row| Accepted::new(&call, row, call.value[row].into())).collect();
    let of = |row: usize, radius| Neighbours::of(&survivors[row], &survivors, radius);
    assert_eq!(of(0, 50), Neighbours { count: 2, sum: 17 });
    assert_eq!(of(0, 51), Neighbours { count: 3, sum: 47 });
    assert_eq!(of(0, 1), Neighbours { count: 1, sum: -3 });
    assert_eq!(of(1, 2), Neighbours { count: 1, sum: 30 });
    let two = Neighbours { count: 2, sum: -4_000_000 };
    assert_eq!(two.apart(2_000_000), 8_000_000);
    assert!(two.set_aside(2_000_000, 2_000_000) && !two.set_aside(0, 2_000_000));
    assert!(!Neighbours { count: 1, sum: -4_000_000 }.set_aside(2_000_000, 0));
}

#[test]
fn the_reach_goes_by_both_radii() {
    let with = |radii: &[i32], smooth, buddy| {
        reach(&changed(|call| {
            (call.scans, call.radius, call.smooth) = (radii.len() as u32, radii.to_vec(), smooth);
            call.buddy = buddy;
        }))
    };
    assert_eq!(with(&[96, 64], true, None), 5, "case (h)");
    assert_eq!(with(&[96, 64], true, Some(Buddy { on: false, ..Buddy::on(512, 0) })), 5);
    assert_eq!(with(&[96, 64], true, Some(Buddy::on(32, 0))), 2 + 2 + 2, "128 and 96");
    assert_eq!(with(&[96, 64], true, Some(Buddy::on(33, 0))), 3 + 2 + 2);
    assert_eq!(with(&[1], false, Some(Buddy::on(1, 0))), 1);
    assert_eq!(with(&[1024], false, Some(Buddy::on(512, 0))), 24);
}

#[test]
fn six_is_the_check_too() {
    let refused = |buddy: Buddy, change: &dyn Fn(&mut Call)| {
        let call = changed(|call| {
            call.buddy = Some(buddy);
            change(call);
        });
        analyse(&call).err().map_or((0, 0), |refusal| (refusal.number, refusal.place))
    };
    for (radius, limit) in [(1, 0), (512, 2_000_000), (1, 2_000_000), (512, 0)] {
        assert_eq!(refused(Buddy::on(radius, limit), &|_| ()), (0, 0));
    }
    for (radius, limit) in
        [(0, 0), (513, 0), (-1, 0), (i32::MIN, 0), (i32::MAX, 0), (1, -1), (1, 2_000_001), (0, -1)]
    {
        let bad = Buddy::on(radius, limit);
        assert_eq!(refused(bad, &|_| ()), (6, 6), "{radius},{limit}");
        assert_eq!(refused(Buddy { on: false, ..bad }, &|_| ()), (0, 0), "not read");
        assert_eq!(refused(bad, &|call| call.radius[0] = 0), (6, 0), "the scans come first");
        assert_eq!(refused(bad, &|call| call.rule = Some(3)), (5, 0), "5 before 6");
        assert_eq!(refused(bad, &|call| call.y.push(0)), (4, 0), "4 before 6");
        assert_eq!(refused(bad, &|call| call.grid_len = 1), (3, 0), "3 before 6");
        assert_eq!(refused(bad, &|call| call.first_guess[0] = MISSING), (6, 6), "6 before 7");
        assert_eq!(refused(bad, &|call| call.until[0] = 0), (6, 6), "6 before 8");
        let six = |call: &mut Call| {
            (call.scans, call.radius, call.limit) = (6, vec![96; 6], vec![200; 6]);
            call.limit[5] = -1;
        };
        assert_eq!(refused(bad, &six), (6, 5), "the sixth scan");
        let mut call = changed(|call| call.buddy = Some(bad));
        (call.grid_len, call.support_len) = (1, 1);
        let code = window(&call, &Window::new(0, 0, 0, 0)).map_err(|refusal| refusal.code());
        assert_eq!(code, Err(6 * 65_536 + 6));
    }
}

fn answered(text: &str) -> String {
    String::from_utf8(answer(text.as_bytes())).expect("answers are plain")
}

/// Case (i) with a line of its own after `scan=`, and the third station in service.
fn with_line(line: &str) -> String {
    let text = REQUEST.replacen("990,0,995", "990,0,open", 1);
    answered(&text.replacen("scan=96,200\n", &format!("scan=96,200\n{line}"), 1))
}

/// The stations differ by 128, -64 and 60 from the first guess; the second is 90.5 units
/// from the first, and so is the third; 181 from each other.
#[test]
fn a_text_may_have_a_check() {
    let verdicts = |line: &str| with_line(line).lines().last().unwrap_or_default().to_string();
    assert_eq!(verdicts(""), "ver=0,0,0");
    // 2 times 128 less -4 is 260.
    assert_eq!(verdicts("buddy=91,129\n"), "ver=21,0,0");
    assert_eq!(verdicts("buddy=91,130\n"), "ver=0,0,0");
    assert_eq!(verdicts("buddy=90,0\n"), "ver=0,0,0");
    // -128 less 188 is -316, and 120 less 64 is 56.
    assert_eq!(verdicts("buddy=182,129\n"), "ver=21,21,0");
    assert_eq!(verdicts("buddy=512,0\n"), "ver=21,21,21");
    assert_eq!(verdicts("buddy=512,2000000\n"), "ver=0,0,0");
    let read = |line: &str| {
        let text = REQUEST.replacen("scan=96,200\n", &format!("scan=96,200\n{line}"), 1);
        parse(text.as_bytes()).expect("in form").buddy
    };
    assert_eq!(read(""), None);
    assert_eq!(read("buddy=91,130\n"), Some(Buddy::on(91, 130)));
    assert_eq!(read("buddy=-2147483648,2147483647\n"), Some(Buddy::on(i32::MIN, i32::MAX)));
    let later = REQUEST.replacen("scan=96,200\n", "scan=96,200\nbuddy=9,9\n", 1);
    let later = later.replacen("0,995", "0,x", 1);
    assert_eq!(answered(&later), "refusal=9\nplace=14\n", "the line counts");
}

#[test]
fn a_check_out_of_range_is_six_in_a_text_too() {
    for bad in ["0,0", "513,0", "-1,0", "1,-1", "1,2000001", "2147483647,0", "9,-2147483648"] {
        assert_eq!(with_line(&format!("buddy={bad}\n")), "refusal=6\nplace=6\n", "{bad}");
    }
    let bad = |old: &str, new: &str| {
        let text = REQUEST.replacen("scan=96,200\n", "scan=96,200\nbuddy=0,0\n", 1);
        answered(&text.replacen(old, new, 1))
    };
    assert_eq!(bad("scan=96", "scan=0"), "refusal=6\nplace=0\n");
    assert_eq!(bad("row=640", "row=1000001"), "refusal=6\nplace=6\n", "6 before 7");
    assert_eq!(bad("0,995", "0,0"), "refusal=6\nplace=6\n", "6 before 8");
    assert_eq!(bad("0,995", "0,x"), "refusal=9\nplace=14\n", "the form comes first");
}

#[test]
fn a_checks_line_that_is_not_in_form_is_nine_there() {
    let nine = |place: u32| format!("refusal=9\nplace={place}\n");
    for bad in [
        "",
        "9",
        "9,",
        ",9",
        "9,9,9",
        "9,9,",
        " 9,9",
        "9, 9",
        "9,9 ",
        "+9,9",
        "9,+9",
        "09,9",
        "9,09",
        "-0,9",
        "9,-0",
        "9,00",
        "x,9",
        "9,M",
        "9,open",
        "9.0,9",
        "9;9",
        "9,9\r",
        "9\t,9",
        "0x9,9",
        "2147483648,9",
        "9,2147483648",
        "-2147483649,9",
        "9,-2147483649",
        "4294967305,9",
        "9,18446744073709551625",
        "9,9\0",
        "9,1e3",
        "--9,9",
    ] {
        assert_eq!(with_line(&format!("buddy={bad}\n")), nine(7), "{bad}");
    }
    for key in ["buddys=9,9", "Buddy=9,9", "BUDDY=9,9", "budy=9,9", " buddy=9,9", "buddy =9,9"] {
        assert_eq!(with_line(&format!("{key}\n")), nine(7), "{key}");
    }
    for key in ["buddy", "buddy9,9", "=9,9", "", "buddies=9,9", "scan=9,9", "buddy:9,9"] {
        assert_eq!(with_line(&format!("{key}\n")), nine(7), "{key}");
    }
    let moved = |old: &str, new: &str| answered(&REQUEST.replacen(old, new, 1));
    assert_eq!(moved("scan=96", "buddy=9,9\nscan=96"), nine(6));
    assert_eq!(moved("scans=1", "buddy=9,9\nscans=1"), nine(5));
    assert_eq!(moved("grid=", "buddy=9,9\ngrid="), nine(1));
    assert_eq!(moved("stations=", "buddy=9,9\nstations="), nine(10), "after the rows");
    let between = "row=640,640,640\nbuddy=9,9\nrow=";
    assert_eq!(moved("row=640,640,640\nrow=", between), nine(8), "between rows");
    let scans = "scans=2\nscan=96,200\nbuddy=9,9\nscan=96,200\n";
    assert_eq!(moved("scans=1\nscan=96,200\n", scans), nine(7), "between scans");
    assert_eq!(with_line("buddy=9,9\nbuddy=9,9\n"), nine(8), "doubled");
    assert_eq!(with_line("buddy=9,9"), nine(7), "without a line feed");
    assert_eq!(answered(&format!("{REQUEST}buddy=9,9\n")), nine(14), "surplus");
    let head = "grid=3,3\ntime=1000\nage=60\nsmooth=0\nscans=1\nscan=96,200\n";
    assert_eq!(answered(&format!("{head}buddy=9,9")), nine(7), "the unended line");
    assert_eq!(answered(&format!("{head}buddy=9,9\n")), nine(8), "the absent line");
    assert_eq!(answered(&format!("{head}buddy")), nine(7));
}

#[test]
fn calls_are_written_out_with_their_check() {
    let mut call = changed(|_| ());
    let text = |call: &Call| request_text(call, Style::default()).map(String::from_utf8);
    assert_eq!(text(&call), Some(Ok(REQUEST.to_string())));
    assert_eq!(answered(REQUEST), ANSWER);
    call.buddy = Some(Buddy::on(91, 130));
    let with = REQUEST.replacen("row=", "buddy=91,130\nrow=", 1);
    assert_eq!((text(&call), rerun_form(&call)), (Some(Ok(with.clone())), with));
    call.buddy = Some(Buddy { on: false, ..Buddy::on(-5, 7) });
    assert_eq!(text(&call), Some(Ok(REQUEST.to_string())), "off");
    let listed = rerun_form(&call);
    assert!(listed.contains("\nbuddy=false\nbuddy_radius,buddy_limit=-5,7\ntime,age="), "{listed}");
    call.buddy = Some(Buddy::on(0, -1));
    assert!(rerun_form(&call).contains("\nbuddy=0,-1\nrow="), "6 can be said in a text");
    (call.buddy, call.mode) = (None, 1);
    assert!(!rerun_form(&call).contains("buddy"), "left out");
}

#[test]
fn what_no_check_may_do_is_told() {
    let call = along_a_line((50, 400), &[(100, 500), (110, 10), (120, 20), (130, 30)]);
    let analysis = run(&call);
    assert_eq!(moved_by_check(&call, &analysis), None);
    let said = |call: &Call, analysis: &Analysis| moved_by_check(call, analysis);
    let off = Call { buddy: Some(Buddy { on: false, ..Buddy::on(50, 400) }), ..call.clone() };
    assert_eq!(said(&off, &run(&off)), None);
    let aside = "a station is set aside without a check";
    assert_eq!(said(&off, &analysis).as_deref(), Some(aside));
    let none = Call { buddy: None, ..call.clone() };
    assert_eq!(said(&none, &analysis).as_deref(), Some(aside));
    let mut wrong = run(&off);
    wrong.grid[0] += 1;
    assert_eq!(said(&off, &wrong).as_deref(), Some("a check that is off changes the answer"));
    let mut wrong = analysis;
    wrong.verdict[3] = 11;
    let unlike = "the check changes whom the first limit rejects";
    assert_eq!(said(&call, &wrong).as_deref(), Some(unlike));
}
