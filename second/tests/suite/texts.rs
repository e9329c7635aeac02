//! The rules of the request text, each on case (i) with something replaced.

use crate::{ANSWER, REQUEST};
use second::generate_text;
use second::text::answer;
use second::units::MOST_TEXT;

fn answered(text: &str) -> String {
    String::from_utf8(answer(text.as_bytes())).expect("answers are plain")
}

/// The answer to case (i) with one piece of it replaced.
fn with(old: &str, new: &str) -> String {
    assert!(REQUEST.contains(old), "{old} is in the request");
    answered(&REQUEST.replacen(old, new, 1))
}

fn refusal(number: u32, place: u32) -> String {
    format!("refusal={number}\nplace={place}\n")
}

#[test]
fn numbers_are_plain_decimals_of_their_type() {
    for bad in ["+64", "064", "-0", "", "-", " 64", "64 ", "6 4", "0x40", "6.4", "00", "--1"] {
        assert_eq!(with("st=64,", &format!("st={bad},")), refusal(9, 11), "{bad}");
    }
    for bad in ["2147483648", "-2147483649", "99999999999999999999"] {
        assert_eq!(with("st=64,", &format!("st={bad},")), refusal(9, 11), "{bad}");
        assert_eq!(with("row=640", &format!("row={bad}")), refusal(9, 7), "{bad}");
    }
    for bad in ["4294967296", "-1", "01", "18446744073709551616"] {
        assert_eq!(with("time=1000", &format!("time={bad}")), refusal(9, 2));
        assert_eq!(with("age=60", &format!("age={bad}")), refusal(9, 3));
        assert_eq!(with("768,990,", &format!("768,{bad},")), refusal(9, 11));
    }
    assert_eq!(with("age=60", "age=4294967295"), ANSWER);
    assert_eq!(with("st=64,", "st=2147483647,"), refusal(8, 0), "in its type, out of range");
}

#[test]
fn counts_and_the_switch_are_of_the_form() {
    for bad in ["1,3", "3,65", "0,3", "3", "3,3,3", "3,-3", ",", "3,"] {
        assert_eq!(with("grid=3,3", &format!("grid={bad}")), refusal(9, 1), "{bad}");
    }
    for bad in ["0", "7", "-1", "01", "1,1"] {
        assert_eq!(with("scans=1", &format!("scans={bad}")), refusal(9, 5), "{bad}");
    }
    for bad in ["2", "-1", "00", "", "true"] {
        assert_eq!(with("smooth=0", &format!("smooth={bad}")), refusal(9, 4), "{bad}");
    }
    assert_eq!(with("stations=3", "stations=513"), refusal(9, 10));
    assert_eq!(with("stations=3", "stations=-1"), refusal(9, 10));
    assert_eq!(with("stations=3", "stations=4"), refusal(9, 14), "the absent line");
    assert_eq!(with("stations=3", "stations=2"), refusal(9, 13), "the surplus line");
    assert_eq!(with("row=640,640,640", "row=640,640"), refusal(9, 7));
    assert_eq!(with("row=640,640,640", "row=640,640,640,640"), refusal(9, 7));
    assert_eq!(with("scan=96,200", "scan=96"), refusal(9, 6));
    assert_eq!(with("0,995", "0,995,1"), refusal(9, 13));
}

#[test]
fn lines_stand_in_their_order_and_are_ended() {
    assert_eq!(answered(""), refusal(9, 1));
    assert_eq!(answered("\n"), refusal(9, 1));
    assert_eq!(answered("grid=3,3"), refusal(9, 1), "the unended line");
    assert_eq!(answered("grid=3,3\n"), refusal(9, 2), "the absent line");
    assert_eq!(answered(REQUEST.trim_end()), refusal(9, 13), "the last line feed");
    assert_eq!(answered(&format!("{REQUEST}\n")), refusal(9, 14));
    assert_eq!(answered(&format!("{REQUEST}x")), refusal(9, 14), "surplus bytes");
    assert_eq!(answered(&REQUEST.replace('\n', "\r\n")), refusal(9, 1));
    assert_eq!(with("time=", "Time="), refusal(9, 2));
    assert_eq!(with("time=", "time ="), refusal(9, 2));
    assert_eq!(with("time=1000\nage=60\n", "age=60\ntime=1000\n"), refusal(9, 2));
    assert_eq!(with("age=60\n", "age=60\nage=60\n"), refusal(9, 4), "doubled");
    assert_eq!(with("row=640,640,640\n", ""), refusal(9, 9), "a row is missing");
    assert_eq!(with("smooth=0\n", ""), refusal(9, 4));
    for (at, line) in REQUEST.split_inclusive('\n').enumerate() {
        let start: usize = REQUEST.split_inclusive('\n').take(at).map(str::len).sum();
        let lines = at as u32 + 1;
        assert_eq!(answered(&REQUEST[..start]), refusal(9, lines), "ends before {line}");
        assert_eq!(answered(&REQUEST[..start + line.len() - 1]), refusal(9, lines), "unended");
    }
}

#[test]
fn age_may_be_left_out() {
    let old = REQUEST.replacen("990", "880", 1);
    assert!(answered(&old).ends_with("ver=4,0,2\n"), "120 is over 60");
    let left_out = old.replacen("age=60\n", "", 1);
    assert_eq!(answered(&left_out), ANSWER);
    let older = left_out.replacen("880", "879", 1);
    assert!(answered(&older).ends_with("ver=4,0,2\n"), "121 is over 120");
    let bad = left_out.replacen("scans=1", "scans=0", 1);
    assert_eq!(answered(&bad), refusal(9, 4), "an absent line counts nothing");
}

#[test]
fn marks_are_words_or_digits() {
    let missing = with("64,64,768", "64,64,M");
    assert!(missing.ends_with("ver=1,0,2\n"));
    assert_eq!(with("64,64,768", "64,64,-2147483648"), missing);
    assert_eq!(with("open", "4294967295"), ANSWER);
    for bad in ["m", "MM", "M ", "open", "missing"] {
        assert_eq!(with("64,64,768", &format!("64,64,{bad}")), refusal(9, 11), "{bad}");
    }
    for bad in ["Open", "OPEN", "M", "-1", "open "] {
        assert_eq!(with("open", bad), refusal(9, 11), "{bad}");
    }
    assert_eq!(with("row=640", "row=M"), refusal(9, 7));
    assert_eq!(with("990,0,open", "990,open,open"), refusal(9, 11));
}

#[test]
fn ten_then_nine_then_the_rest() {
    let mut long = REQUEST.to_string();
    long += &"x".repeat(MOST_TEXT - long.len());
    assert_eq!(answered(&long), refusal(9, 14), "exactly the limit");
    long.push('x');
    assert_eq!(answered(&long), refusal(10, 0));
    assert_eq!(with("scan=96,200", "scan=0,200"), refusal(6, 0));
    assert_eq!(with("scans=1\n", "scans=2\nscan=95,200\n"), refusal(6, 1), "rising");
    let form_first = REQUEST.replacen("scan=96", "scan=0", 1).replacen("0,995", "0,x", 1);
    assert_eq!(answered(&form_first), refusal(9, 13));
    assert_eq!(with("row=640", "row=-2147483648"), refusal(7, 0));
    assert_eq!(with("0,995", "995,995"), refusal(8, 2));
}

#[test]
fn proper_requests_reach_the_limit() {
    let at_limit = generate_text::text(1, 5).0;
    assert_eq!(at_limit.len(), MOST_TEXT);
    assert!(answer(&at_limit).starts_with(b"refusal=0\nplace=0\nrow="));
    let past = generate_text::text(1, 5 + 97).0;
    assert_eq!(past.len(), MOST_TEXT + 1);
    assert_eq!(answer(&past), refusal(10, 0).as_bytes());
}

#[test]
fn no_stations_leave_the_last_line_empty() {
    let (head, _) = REQUEST.split_once("stations=3").expect("it has stations");
    let answer = answered(&format!("{head}stations=0\n"));
    assert!(answer.ends_with("sup=0,0,0\nver=\n"));
}

#[test]
fn the_examples_have_their_answers() {
    let evening = include_bytes!("../../../examples/evening.request");
    assert_eq!(answer(evening), include_bytes!("../../../examples/evening.answer"));
    // Row 10 is the neighbour's mast, a post 16 units past the last column. The first guess at
    // (704, 384) is 48, so its D is -80 - 48 = -128 in every scan: within 320 and 160, past 96.
    assert!(answer(evening).ends_with(b"\nver=0,0,0,0,0,0,2,1,4,3,13,11\n"));
    let paper = include_bytes!("../../../examples/paper.txt");
    assert_eq!(answer(paper), include_bytes!("../../../examples/paper.answer"));
}
