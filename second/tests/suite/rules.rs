//! The lone-station rule: request 6 worked by hand, and faults of rules that the
//! harness must see early and make small.

use crate::faulty::{Fault, Faulty};
use crate::faulty_rules::{RuleFault, OF_MODES, OF_NUMBERS, OF_REFUSALS, OF_TEXTS};
use crate::posts::{run_cases, seen_within};
use crate::{changed, lone_station, sample, ANSWER, REQUEST};
use second::call::{Call, Winds};
use second::cases::{AnalysisCase, TextCase, WindowCase};
use second::compare::Case;
use second::generate::push_station;
use second::impossible::moved_by_rule;
use second::scan::Sums;
use second::scheme::{analyse, run};
use second::screen_case::ScreenCase;
use second::text::{answer, parse};
use second::units::{MISSING, WEIGHT_SCALE};
use second::window::{cut, window};
use second::write::{request_text, rerun_form, Style};

fn under(rule: u32, call: &Call) -> Call {
    Call { rule: Some(rule), ..call.clone() }
}

/// The example of the header: weights of 10,000, 3,846, 3,846 and 588, and D = 64.
#[test]
fn a_lone_station_moves_points_by_its_weights_part() {
    let call = lone_station(2, 2, 640, 0, 0, 704);
    assert_eq!(run(&under(2, &call)).grid, [704, 665, 665, 644]);
    assert_eq!(run(&under(1, &call)).grid, [704; 4]);
    assert_eq!(run(&call), run(&under(1, &call)), "left out means 1");
    for rule in [1, 2] {
        let analysis = run(&under(rule, &call));
        assert_eq!((analysis.support, analysis.verdict), (vec![1; 4], vec![0]));
    }
}

#[test]
fn quotients_over_the_scale_are_rounded() {
    let moved = |weighted: i64| Sums { inside: 1, weights: 7, weighted }.correction(2, 10_000);
    let whole = [0, 4_999, 5_000, 9_999, 14_999, 15_000].map(moved);
    assert_eq!(whole, [0, 0, 1, 1, 1, 2]);
    assert_eq!([-4_999, -5_000, -14_999, -15_000].map(moved), [0, -1, -1, -2]);
    let two = Sums { inside: 2, weights: 7, weighted: 14 };
    assert_eq!((two.correction(2, 10_000), two.correction(1, 10_000)), (2, 2));
    let none = Sums::default();
    assert_eq!((none.correction(2, 10_000), none.supports()), (0, false));
    let silent = Sums { inside: 1, ..none };
    assert_eq!((silent.correction(2, 10_000), silent.supports()), (0, false));
}

/// A station in the corner of a grid and another that only the first point is near to.
fn beside(radius: i32, x: i32, y: i32) -> Call {
    let mut call = lone_station(2, 2, 0, 0, 0, 100);
    push_station(&mut call, x, y, 100);
    // The first stands beside the point, so that its weight is below the scale.
    call.x[0] = -30;
    (call.radius, call.rule) = (vec![radius], Some(2));
    call.fit_results();
    call
}

/// 99² is 9,801: the weight 30 units away is 83,1 in a hundred.
#[test]
fn a_station_without_a_weight_counts_as_inside() {
    let call = beside(99, -70, -70);
    let alone = |call: &Call| run(call).grid[0];
    assert_eq!(alone(&call), 100, "70² + 70² is 99² - 1: two are inside");
    assert_eq!(alone(&beside(99, -70, -71)), 83, "outside");
    assert_eq!(alone(&beside(100, -60, -80)), 83, "at R²");
    let mut silent = lone_station(2, 2, 0, -70, -70, 100);
    (silent.radius, silent.rule) = (vec![99], Some(2));
    let analysis = run(&silent);
    assert_eq!((analysis.grid[0], analysis.support[0]), (0, 0), "alone it does nothing");
    assert_eq!(run(&under(1, &silent)), analysis);
}

#[test]
fn stations_that_are_not_accepted_do_not_count() {
    let mut call = beside(99, -20, 0);
    let alone = |call: &Call| (run(call).grid[0], run(call).verdict[1]);
    assert_eq!(alone(&call), (100, 0), "two");
    call.value[1] = MISSING;
    assert_eq!(alone(&call), (83, 1));
    call.value[1] = 301;
    assert_eq!(alone(&call), (83, 11), "past the limit of 200");
    call.value[1] = 100;
    call.until[1] = 1000;
    assert_eq!(alone(&call), (83, 2));
    (call.until[1], call.observed[1]) = (u32::MAX, 1001);
    assert_eq!(alone(&call), (83, 3));
    call.observed[1] = 939;
    assert_eq!(alone(&call), (83, 4));
    (call.observed[1], call.x[1], call.radius) = (1000, -257, vec![400]);
    assert_eq!(alone(&call), (99, 5), "30 of 400 units away");
    call.x[1] = -256;
    assert_eq!(alone(&call), (100, 0), "a post");
}

/// A station that a later scan rejects counts until then.
#[test]
fn the_count_is_of_each_scan() {
    let mut call = beside(99, 0, -98);
    (call.scans, call.radius, call.limit) = (2, vec![99; 2], vec![300, 90]);
    (call.value, call.smooth) = (vec![60, 200], false);
    let analysis = run(&call);
    assert_eq!(analysis.verdict, [0, 12], "a post's D is 200 in every scan");
    // 99² - 98² is 197, over 19,405: a weight of 101 beside 8,317, so that the point
    // is moved by 61.68; then by 83.17 in a hundred of 60.
    assert_eq!(analysis.grid[0], 62 + 50);
    assert_eq!(run(&under(1, &call)).grid[0], 62 + 60);
}

/// Along the wind the weight is the stretched one: 6,363 for 3,846 of 64.
#[test]
fn a_lone_station_may_have_a_wind() {
    let mut call = lone_station(2, 2, 640, 0, 0, 704);
    call.winds = Some(Winds { u: vec![10], v: vec![0] });
    (call.mode, call.rule) = (1, Some(2));
    assert_eq!(run(&call).grid, [704, 681, 665, 656]);
    assert_eq!(run(&under(1, &call)).grid, [704; 4]);
    // A station with a round weight of 0, and 3,333 along its wind.
    let mut rim = lone_station(2, 2, 0, -70, -70, 100);
    rim.winds = Some(Winds { u: vec![1], v: vec![1] });
    (rim.radius, rim.mode, rim.rule) = (vec![99], 1, Some(2));
    assert_eq!((run(&rim).grid[0], run(&rim).support[0]), (33, 1));
}

#[test]
fn a_lone_post_moves_a_point_by_the_same_in_every_scan() {
    let mut call = lone_station(2, 2, 0, -64, 0, 100);
    (call.scans, call.radius, call.limit, call.rule) = (3, vec![96; 3], vec![100; 3], Some(2));
    assert_eq!(run(&call).grid[0], 3 * 38);
    assert_eq!(run(&under(1, &call)).grid[0], 300);
}

#[test]
fn five_is_the_rule_too() {
    let refused = |change: &dyn Fn(&mut Call)| {
        let refusal = analyse(&changed(|call| change(call))).err();
        refusal.map_or((0, 0), |refusal| (refusal.number, refusal.place))
    };
    for rule in [1, 2] {
        assert_eq!(refused(&|call| call.rule = Some(rule)), (0, 0));
    }
    for rule in [0, 3, 4, 256, 257, 258, 65_537, 1 << 31, (1 << 31) + 1, u32::MAX] {
        let with = |change: &dyn Fn(&mut Call)| {
            refused(&|call| {
                call.rule = Some(rule);
                change(call);
            })
        };
        assert_eq!(with(&|_| ()), (5, 0), "{rule}");
        assert_eq!(with(&|call| call.y.push(0)), (4, 0), "4 before 5");
        assert_eq!(with(&|call| call.grid_len = 1), (3, 0), "3 before 5");
        assert_eq!(with(&|call| call.scans = 7), (5, 0));
        assert_eq!(with(&|call| call.mode = 2), (5, 0));
        assert_eq!(with(&|call| call.radius[0] = 0), (5, 0), "5 before 6");
        assert_eq!(with(&|call| call.first_guess[0] = MISSING), (5, 0), "5 before 7");
        assert_eq!(with(&|call| call.until[0] = 0), (5, 0), "5 before 8");
        let part = second::call::Window::new(0, 0, 0, 0);
        let mut call = changed(|call| call.rule = Some(rule));
        (call.grid_len, call.support_len) = (1, 1);
        let code = window(&call, &part).map_err(|refusal| refusal.code());
        assert_eq!(code, Err(5 * 65_536));
    }
}

fn answered(text: &str) -> String {
    String::from_utf8(answer(text.as_bytes())).expect("answers are plain")
}

/// Case (i) with a line of its own after `smooth=`.
fn with_line(line: &str) -> String {
    answered(&REQUEST.replacen("smooth=0\n", &format!("smooth=0\n{line}"), 1))
}

/// The point in the upper right is 64 away from the first station alone along x, and
/// 90.5 along the diagonal: 3,846 and 588 of D = 128 and -64.
const UNDER_RULE_2: &str = "refusal=0\nplace=0\nrow=587,672,648\nrow=672,757,689\n\
    row=648,689,648\nsup=1,1,1\nsup=1,1,1\nsup=1,1,1\nver=0,0,2\n";

#[test]
fn a_text_may_have_a_rule() {
    assert_eq!(with_line(""), ANSWER);
    assert_eq!(with_line("rule=1\n"), ANSWER);
    assert_eq!(with_line("rule=2\n"), UNDER_RULE_2);
    let rule = |line: &str| {
        let text = REQUEST.replacen("smooth=0\n", &format!("smooth=0\n{line}"), 1);
        parse(text.as_bytes()).expect("in form").rule
    };
    assert_eq!([rule(""), rule("rule=1\n"), rule("rule=2\n")], [None, Some(1), Some(2)]);
    let bad_plan =
        REQUEST.replacen("smooth=0\n", "smooth=0\nrule=2\n", 1).replacen("scan=96", "scan=0", 1);
    assert_eq!(answered(&bad_plan), "refusal=6\nplace=0\n");
    let later = REQUEST.replacen("smooth=0\n", "smooth=0\nrule=2\n", 1).replacen("0,995", "0,x", 1);
    assert_eq!(answered(&later), "refusal=9\nplace=14\n", "the line counts");
}

#[test]
fn a_rules_line_that_is_not_in_form_is_nine_there() {
    let nine = |place: u32| format!("refusal=9\nplace={place}\n");
    for bad in [
        "0",
        "3",
        "4",
        "10",
        "11",
        "12",
        "21",
        "22",
        "01",
        "02",
        "00",
        "-1",
        "-0",
        "+1",
        "",
        " 1",
        "1 ",
        "1,",
        ",1",
        "1,1",
        "one",
        "1x",
        "0x1",
        "1.0",
        "M",
        "open",
        "257",
        "4294967295",
        "4294967297",
        "4294967298",
        "18446744073709551617",
        "2147483648",
        "1\r",
        "--1",
        "1e0",
    ] {
        assert_eq!(with_line(&format!("rule={bad}\n")), nine(5), "{bad}");
    }
    for key in
        ["rules=1", "Rule=1", "RULE=1", "rul=1", " rule=1", "rule =1", "rule", "rule1", "=1", ""]
    {
        assert_eq!(with_line(&format!("{key}\n")), nine(5), "{key}");
    }
    let moved = |old: &str, new: &str| answered(&REQUEST.replacen(old, new, 1));
    assert_eq!(moved("smooth=0\n", "rule=2\nsmooth=0\n"), nine(4));
    assert_eq!(moved("age=60\n", "rule=2\nage=60\n"), nine(3));
    assert_eq!(moved("scans=1\n", "scans=1\nrule=2\n"), nine(6));
    assert_eq!(moved("scan=96,200\n", "scan=96,200\nrule=2\n"), nine(7));
    assert_eq!(with_line("rule=2\nrule=2\n"), nine(6), "doubled");
    assert_eq!(with_line("rule=1\nrule=2\n"), nine(6));
    assert_eq!(with_line("rule=2"), nine(5), "without a line feed");
    assert_eq!(answered(&format!("{REQUEST}rule=2\n")), nine(14), "surplus");
    let head = "grid=3,3\ntime=1000\nage=60\nsmooth=0\n";
    assert_eq!(answered(&format!("{head}rule=2")), nine(5), "the unended line");
    assert_eq!(answered(&format!("{head}rule=2\n")), nine(6), "the absent line");
    assert_eq!(answered(&format!("{head}rule")), nine(5));
}

#[test]
fn rules_are_written_out_as_they_came() {
    let text = |rule: Option<u32>| {
        let call = changed(|call| call.rule = rule);
        request_text(&call, Style::default()).map(|text| String::from_utf8(text).expect("plain"))
    };
    assert_eq!(text(None).as_deref(), Some(REQUEST));
    let with = |rule: u32| REQUEST.replacen("smooth=0\n", &format!("smooth=0\nrule={rule}\n"), 1);
    assert_eq!(text(Some(1)), Some(with(1)));
    assert_eq!(text(Some(2)), Some(with(2)));
    assert_eq!((text(Some(0)), text(Some(3))), (None, None), "no text can say that");
    let listed = rerun_form(&changed(|call| (call.rule, call.mode) = (Some(2), 1)));
    assert!(listed.contains("\nsmooth=false\nmode=1\nrule=2\ntime,age=1000,60\n"), "{listed}");
    let left_out = rerun_form(&changed(|call| call.mode = 1));
    assert!(left_out.contains("\nmode=1\ntime,age=1000,60\n"), "{left_out}");
    assert!(rerun_form(&changed(|call| call.rule = Some(3))).contains("\nmode=0\nrule=3\n"));
}

#[test]
fn a_cut_keeps_the_rule() {
    let call = changed(|call| call.rule = Some(2));
    let part = second::call::Window::new(0, 1, 0, 1);
    assert_eq!(cut(&call, &part).rule, Some(2));
}

#[test]
fn what_no_answer_may_hold_is_seen() {
    let mut call = lone_station(2, 2, 0, 0, 0, 100);
    call.rule = Some(2);
    let right = run(&call);
    assert_eq!(moved_by_rule(&call, &right), None);
    let mut wrong = right.clone();
    wrong.support[3] = 0;
    let said = "in the first scan rule 1 has other supports or verdicts";
    assert_eq!(moved_by_rule(&call, &wrong).as_deref(), Some(said));
    let mut wrong = right.clone();
    wrong.verdict[0] = 11;
    assert_eq!(moved_by_rule(&call, &wrong).as_deref(), Some(said));
    assert_eq!(moved_by_rule(&under(1, &call), &wrong), None, "not looked at");
}

fn shares<C: Case>(call: fn(C) -> Option<Call>) {
    let calls: Vec<Call> = (0..3_000).filter_map(|index| call(C::generate(3, index))).collect();
    let of = |rule: Option<u32>| calls.iter().filter(|call| call.rule == rule).count();
    let (none, one, two) = (of(None), of(Some(1)), of(Some(2)));
    let all = calls.len();
    assert!(all / 4 < none && none < all * 2 / 5, "{none} of {all} {}", C::KIND);
    assert!(all / 8 < one && one < all / 3, "{one} of {all} {}", C::KIND);
    assert!(all / 3 < two && two < all / 2, "{two} of {all} {}", C::KIND);
}

/// A third to half of the requests are under rule 2, and a third leave it out.
#[test]
fn each_rule_has_its_share() {
    shares::<AnalysisCase>(|case| Some(case.0));
    shares::<WindowCase>(|case| Some(case.call));
    shares::<ScreenCase>(|case| Some(case.call));
    shares::<TextCase>(|case| parse(&case.text).ok());
}

/// So many generated requests of each kind, of any seed, show each fault of rules.
const ENOUGH: u64 = 500;

fn faults(of: &[&[RuleFault]]) -> Vec<Fault> {
    of.concat().into_iter().map(Fault::Rules).collect()
}

#[test]
fn faults_of_rules_are_seen_early() {
    seen_within::<AnalysisCase>(ENOUGH, &faults(&[&OF_NUMBERS, &OF_MODES, &OF_REFUSALS]));
}

#[test]
fn faults_of_rules_are_seen_early_in_windows() {
    let of_cuts = [RuleFault::CutUnderTheDefault];
    seen_within::<WindowCase>(ENOUGH, &faults(&[&OF_NUMBERS, &OF_MODES, &OF_REFUSALS, &of_cuts]));
}

#[test]
fn faults_of_rules_are_seen_early_in_screens() {
    let of_cuts = [RuleFault::CutUnderTheDefault];
    seen_within::<ScreenCase>(ENOUGH, &faults(&[&OF_NUMBERS, &OF_MODES, &OF_REFUSALS, &of_cuts]));
}

#[test]
fn faults_of_rules_are_seen_early_in_texts() {
    seen_within::<TextCase>(ENOUGH, &faults(&[&OF_NUMBERS, &OF_TEXTS]));
}

#[test]
fn faults_of_rules_are_made_small() {
    let smallest = |fault: RuleFault| {
        let failure = run_cases::<AnalysisCase>(&Faulty(Fault::Rules(fault)), ENOUGH).failure;
        failure.expect("seen").smallest.0
    };
    for fault in OF_NUMBERS.into_iter().chain(OF_MODES) {
        let call = smallest(fault);
        assert!(call.x.len() <= 3 && call.first_guess.len() <= 9, "{fault:?}: {call:?}");
        assert!(call.scans <= 2, "{fault:?}: {call:?}");
        let rule = if fault == RuleFault::Always { None } else { Some(2) };
        assert!(fault == RuleFault::Exchanged || call.rule == rule, "{fault:?}: {call:?}");
    }
    for fault in OF_REFUSALS {
        let call = smallest(fault);
        assert!(call.x.len() <= 1 && call.first_guess.len() <= 4, "{fault:?}: {call:?}");
    }
    let rule = |fault| smallest(fault).rule;
    assert_eq!((rule(RuleFault::ThreePasses), rule(RuleFault::ZeroPasses)), (Some(3), Some(0)));
    assert_eq!(rule(RuleFault::OthersAreTheDefault), Some(0));
    assert!(rule(RuleFault::InOneByte).is_some_and(|rule| rule > 255));
    assert_eq!(smallest(RuleFault::Ignored).x.len(), 1);
}

/// Rule 1 is what there was before: nothing changes for those who leave it out.
#[test]
fn a_rule_that_is_left_out_is_rule_1() {
    let scale = WEIGHT_SCALE;
    assert_eq!(Sums { inside: 1, weights: 3, weighted: 9 }.correction(1, scale), 3);
    for index in 0..600 {
        let call = AnalysisCase::generate(9, index).0;
        let [none, one] = [None, Some(1)].map(|rule| analyse(&Call { rule, ..call.clone() }));
        assert_eq!(none, one);
    }
    assert_eq!(analyse(&sample()), analyse(&under(1, &sample())));
}
