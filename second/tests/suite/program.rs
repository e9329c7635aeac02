//! The text program under comparison: a stand-in with one fault each, the
//! texts it is handed, and the script that tries its input and output.

use crate::command::second;
use crate::faulty::{Fault, Faulty};
use crate::faulty_buddies::BuddyFault;
use crate::faulty_lines::LineFault;
use crate::sorts::numbers;
use crate::{ANSWER, REQUEST};
use second::cases::TextCase;
use second::compare::{run, run_two_at_a_time, Answer, Case, Own, Subject};
use second::harm::{floors, harm};
use second::near::{Edits, Near, CHECKED, GIVEN, PAPER, STRIDE};
use second::program::Program;
use second::rng::Rng;
use second::survey::compare_near;
use second::text::{answer, decide};
use std::collections::BTreeSet;
use std::process::{Command, Output};

const SECOND: &str = env!("CARGO_BIN_EXE_second");
const SCRIPT: &str = concat!(env!("CARGO_MANIFEST_DIR"), "/tests/suite/analyse.sh");

/// The command of a stand-in; the empty fault is none.
fn stand_in(fault: &str) -> String {
    format!("{SCRIPT} {SECOND} {fault}")
}

fn difference(fault: &str) -> Option<String> {
    let program = Program::find(&stand_in(fault)).expect("it starts");
    TextCase { text: REQUEST.into(), sorts: Vec::new() }.differs(&program)
}

#[test]
fn every_fault_of_a_program_is_seen() {
    assert_eq!(difference(""), None);
    let seen = |fault: &str| difference(fault).unwrap_or_else(|| panic!("{fault} was not seen"));
    assert_eq!(seen("byte"), "answer line 9 is ver=1,0,2\\n, not ver=0,0,2\\n");
    assert_eq!(seen("unended"), "answer line 9 is ver=0,0,2, not ver=0,0,2\\n");
    assert_eq!(seen("status"), "the program ended with exit status: 3");
    assert_eq!(seen("errors"), "standard error is all is well\\n, not empty");
}

#[test]
fn a_long_text_is_written_to_a_program_that_does_not_read() {
    let deaf = Program::find("echo refusal=10").expect("it starts");
    assert_eq!(deaf.text(&[b'x'; 300_000]), Ok(b"refusal=10\n".to_vec()));
    let reads = Program::find("wc -c").expect("it starts");
    assert_eq!(reads.text(&[b'x'; 300_000]), Ok(b"300000\n".to_vec()));
}

#[test]
fn compare_runs_a_program() {
    let program = stand_in("");
    let environment = [("SOSNYAVIK_ANALYSE", &program[..]), ("SOSNYAVIK_STRIDE", "2000")];
    let output = second(&["compare", "text", "8", "60"], &environment, "");
    let said = String::from_utf8_lossy(&output.stdout).into_owned();
    assert!(output.status.success(), "{output:?}");
    assert!(said.starts_with("seed 8, count 60\ntext, 60 cases\n  accepted: "), "{said}");
    let output = second(&["compare", "near"], &environment, "");
    let said = String::from_utf8_lossy(&output.stdout).into_owned();
    assert!(output.status.success(), "{output:?}");
    let counts = "345 of 345 deletions, 45 of 88832 insertions, 45 of 87975 substitutions";
    assert!(said.starts_with(&format!("stride 2000, {counts}\nnear, 435 cases\n")), "{said}");
}

#[test]
fn compare_fails_on_a_program_with_a_fault() {
    for kind in ["text", "near"] {
        let program = stand_in("status");
        let output = second(&["compare", kind], &[("SOSNYAVIK_ANALYSE", &program)], "");
        let said = String::from_utf8_lossy(&output.stderr).into_owned();
        assert_eq!(output.status.code(), Some(1), "{said}");
        assert!(said.starts_with(&format!("second: {kind} case 0 of ")), "{said}");
        assert!(said.contains(": the program ended with exit status: 3\n"), "{said}");
        assert!(said.trim_end().ends_with("printf -- '' | second text"), "made small: {said}");
    }
}

#[test]
fn two_at_a_time_sees_what_one_does() {
    let make = |index| TextCase::generate(7, index);
    let one = run::<TextCase>(&Own, 7, 700);
    let two = run_two_at_a_time(&Own, &make, 700);
    assert!(one.failure.is_none() && two.failure.is_none());
    assert_eq!(one.tally, two.tally);
    let faulty = Faulty(Fault::CarriageReturns);
    let one = run::<TextCase>(&faulty, 7, 3_000).failure.expect("seen");
    for _ in 0..5 {
        let two = run_two_at_a_time(&faulty, &make, 3_000).failure.expect("seen");
        assert_eq!((two.index, two.smallest.text), (one.index, one.smallest.text.clone()));
    }
}

/// The harms by name and number, and the outcome of each: 0 is accepted.
fn harmed() -> Vec<(&'static str, u32, u32)> {
    let mut rng = Rng::for_case(1, 2, 3);
    let turns = floors().len() as u64;
    let harmed = (0..turns).map(|turn| {
        let text = REQUEST.replacen("scans=", "rule=2\nscans=", 1);
        let mut text = text.replacen("row=", "buddy=100,300\nrow=", 1).into_bytes();
        let (name, number) = harm(&mut rng, &mut text, turn);
        (name, number, decide(&text).err().map_or(0, |refusal| refusal.number))
    });
    harmed.collect()
}

#[test]
fn every_harm_has_its_turn() {
    let seen: BTreeSet<_> = harmed().into_iter().map(|(name, number, _)| (name, number)).collect();
    let asked = floors().into_iter().map(|floor| (floor.name, floor.number)).collect();
    assert_eq!(seen, asked);
    assert!(floors().iter().all(|floor| floor.least > 0));
}

#[test]
fn harms_do_what_they_say() {
    let outcomes = |opening: &str| -> Vec<u32> {
        let named = harmed().into_iter().filter(|(name, ..)| name.starts_with(opening));
        named.map(|(_, _, refusal)| refusal).collect()
    };
    for not_in_form in [
        "number with a plus",
        "number with a leading zero",
        "number as -0",
        "number left empty",
        "number one outside its type",
        "number that wraps to what it was",
    ] {
        assert_eq!(outcomes(not_in_form), [9; 19], "{not_in_form}");
    }
    // nx, ny, time, age, smooth, rule, scans, R, E, B, L, row, stations, x, y, value, and
    // three minutes.
    let outside = [9, 9, 9, 9, 9, 9, 9, 6, 6, 6, 6, 7, 9, 8, 8, 8, 9, 9, 9];
    assert_eq!(outcomes("number one below its range"), outside);
    assert_eq!(outcomes("number one above its range"), outside);
    for not_in_form in
        ["line with", "line joined", "line broken", "text cut inside", "text cut before"]
    {
        let outcomes = outcomes(not_in_form);
        assert!(!outcomes.is_empty() && outcomes.iter().all(|n| *n == 9), "{not_in_form}");
    }
    assert_eq!(outcomes("line doubled"), [9; 11]);
    let dropped = [9, 9, 0, 9, 0, 9, 9, 0, 9, 9, 9];
    assert_eq!(outcomes("line dropped"), dropped, "age, rule and buddy may be left out");
    assert_eq!(outcomes("text with"), [9; 13]);
}

/// The text with a check as it is answered with another one.
fn checked_by(radius: i32, limit: i32) -> String {
    let text = String::from_utf8_lossy(CHECKED).replacen("10,40", &format!("{radius},{limit}"), 1);
    String::from_utf8(answer(text.as_bytes())).expect("answers are plain")
}

#[test]
fn the_given_texts_have_their_answers() {
    assert_eq!(PAPER, REQUEST.as_bytes());
    assert_eq!(answer(PAPER), ANSWER.as_bytes());
    // Without the first station the weights at the first point are 9,997, 9,289 and 9,215:
    // 615,894 over 28,501 is 22, and the second scan takes 2 off it.
    let scans = "row=20,31\nrow=22,25\nsup=3,3\nsup=1,1\n";
    assert_eq!(checked_by(10, 40), format!("refusal=0\nplace=0\n{scans}ver=21,0,0,0\n"));
}

/// The first station is 9 units from the second and the third, 10 from the fourth, and 2
/// times 50 less 9 and 9 is 82. The third is 1 unit from the fourth, and 18 less 98 is -80.
#[test]
fn another_check_gives_another_answer() {
    let verdicts = |radius, limit| {
        let answer = checked_by(radius, limit);
        answer.lines().last().unwrap_or_default().to_string()
    };
    for radius in (1..10).chain(11..=512) {
        assert_eq!(verdicts(radius, 40), "ver=0,0,0,0", "{radius}");
    }
    for limit in 0..40 {
        assert_eq!(verdicts(10, limit), "ver=21,0,21,0", "{limit}");
    }
    for limit in (41..500).chain([2_000_000]) {
        assert_eq!(verdicts(10, limit), "ver=0,0,0,0", "{limit}");
    }
}

#[test]
fn what_becomes_of_a_check_is_told() {
    let told = |given, index: usize| {
        let sorts = Edits::new(given, STRIDE).case(index as u64).sorts;
        numbers(&sorts, "text near one with a check")
    };
    // The deletions come first, so they have the indices of their bytes.
    let at = String::from_utf8_lossy(CHECKED).find("buddy=10,40\n").expect("it has a check");
    let deleted: Vec<Vec<u32>> = (at..at + 12).map(|index| told(CHECKED, index)).collect();
    let (other, out_of_range, not_in_form) = (vec![0], vec![1], vec![2]);
    let key = vec![not_in_form.clone(); 6];
    let radius = [out_of_range, other.clone(), not_in_form.clone()];
    let limit = [other.clone(), other, not_in_form];
    assert_eq!(deleted, [key, radius.to_vec(), limit.to_vec()].concat());
    let station = String::from_utf8_lossy(CHECKED).find("50,1,0,2").expect("it has a station");
    assert_eq!(told(CHECKED, station), [0; 0], "another answer by the same check");
    assert_eq!(told(CHECKED, at - 1), [0; 0], "not in form a line before");
    assert!((0..PAPER.len()).all(|index| told(PAPER, index).is_empty()));
}

#[test]
fn near_texts_are_all_one_byte_away() {
    for given in GIVEN {
        let (whole, length) = (Edits::new(given, 1), given.len() as u64);
        let edits = [length, (length + 1) * 256, length * 255];
        assert_eq!((whole.whole(), whole.run()), (edits, edits));
        let texts = |lengths: std::ops::Range<u64>| -> BTreeSet<Vec<u8>> {
            lengths.map(|index| whole.case(index).text).collect()
        };
        let (deleted, inserted) = (edits[0], edits[0] + edits[1]);
        let substitutions = texts(inserted..whole.count());
        assert_eq!(substitutions.len() as u64, edits[2], "no two alike");
        for text in &substitutions {
            assert_eq!(text.iter().zip(given).filter(|(new, old)| new != old).count(), 1);
        }
        // An insertion beside the same byte gives the same text on either side.
        let insertions = texts(deleted..inserted);
        assert_eq!(insertions.len() as u64, edits[1] - length);
        assert!(insertions.iter().all(|text| text.len() == given.len() + 1));
        assert!(texts(0..deleted).iter().all(|text| text.len() == given.len() - 1));
    }
}

#[test]
fn the_sample_of_near_texts_meets_every_byte_and_place() {
    for given in GIVEN {
        let sample = Edits::new(given, STRIDE);
        let [deletions, insertions, substitutions] = sample.run();
        assert!((3_500..4_500).contains(&sample.count()));
        let place = |text: &[u8]| text.iter().zip(given).position(|(new, old)| new != old);
        let cases =
            |from: u64, count: u64| (from..from + count).map(|index| sample.case(index).text);
        let bytes: BTreeSet<u8> = cases(deletions, insertions)
            .map(|text| place(&text).map_or(text[given.len()], |at| text[at]))
            .collect();
        assert_eq!(bytes.len(), 256);
        let places: BTreeSet<_> =
            cases(deletions + insertions, substitutions).map(|text| place(&text)).collect();
        assert_eq!(places.len(), given.len());
    }
}

#[test]
fn near_texts_are_those_of_all_given_texts() {
    for stride in [1, STRIDE, 1_000] {
        let near = Near::new(stride);
        let all = GIVEN.map(|given| Edits::new(given, stride));
        let texts = all.iter().flat_map(|edits| (0..edits.count()).map(|index| edits.case(index)));
        let texts: Vec<TextCase> = texts.collect();
        assert!((0..near.count()).map(|index| near.case(index)).eq(texts));
    }
}

#[test]
fn near_texts_hold_their_floors() {
    for stride in [1, STRIDE, 1_000] {
        assert_eq!(compare_near(&Own, stride, &mut Vec::new()), Ok(()));
    }
    let said = compare_near(&Faulty(Fault::CarriageReturns), 1, &mut Vec::new());
    assert!(said.is_err_and(|said| said.contains("near case ") && said.contains("of stride 1: ")));
}

/// No text near the paper's example has a check.
#[test]
fn faults_of_checks_are_seen_near_a_given_text() {
    use BuddyFault::*;
    let of_checks = [
        Ignored,
        OneIsEnough,
        ThreeAreNeeded,
        AtTheRim,
        LimitOnce,
        AtTheLimit,
        ForThisScanAlone,
        VerdictFrom20,
        PlaceOfAScan,
        PlaceOfTheLastScan,
        FiveForTheCheck,
        Radius0Passes,
    ];
    let of_lines = [
        LineFault::OneNumber,
        LineFault::ThreeNumbers,
        LineFault::Space,
        LineFault::Unread,
        LineFault::Exchanged,
        LineFault::NineForOutOfRange,
        LineFault::NextLineRefused,
    ];
    let faults = of_checks.into_iter().map(Fault::Buddies);
    for fault in faults.chain(of_lines.map(Fault::Lines)) {
        let said = compare_near(&Faulty(fault), STRIDE, &mut Vec::new());
        assert!(said.is_err_and(|said| said.starts_with("near case ")), "{fault:?}");
    }
}

fn tried(fault: &str) -> Output {
    let root = concat!(env!("CARGO_MANIFEST_DIR"), "/..");
    let stand_in = stand_in(fault);
    let mut command = Command::new("tests/program");
    command.args(stand_in.split_whitespace()).current_dir(root);
    command.output().expect("the script starts")
}

/// One after the other, because they share a folder.
#[test]
fn the_script_sees_faults_of_input_and_output() {
    let output = tried("");
    assert!(output.status.success(), "{output:?}");
    for (fault, seen) in [
        ("closed", "tests/program: a closed standard input: expected an end, no standard output"),
        ("silent", "tests/program: a full standard output: expected an end, no standard output"),
        ("crash", "expected an end; came status 139"),
        ("status", "tests/program: examples/paper.txt from a file: expected status 0"),
    ] {
        let output = tried(fault);
        let said = String::from_utf8_lossy(&output.stderr).into_owned();
        assert_eq!(output.status.code(), Some(1), "{fault}: {said}");
        assert!(said.contains(seen), "{fault}: {said}");
        assert!(said.lines().all(|line| line.starts_with("tests/program: ")), "{fault}: {said}");
    }
}

/// A program that reads a text otherwise than it stands, and answers that.
struct Misreads(Misreading);

type Misreading = fn(&[u8]) -> Vec<u8>;

impl Subject for Misreads {
    fn text(&self, request: &[u8]) -> Answer<Vec<u8>> {
        Ok(answer(&(self.0)(request)))
    }
}

fn without(text: &[u8], byte: u8) -> Vec<u8> {
    text.iter().copied().filter(|other| *other != byte).collect()
}

/// The text with each field of each line read in another way.
fn by_fields(text: &[u8], read: fn(&str) -> String) -> Vec<u8> {
    let text: String = text.iter().map(|byte| char::from(*byte)).collect();
    let ends_field = |c| ",=\n".contains(c);
    let read = text.split_inclusive(ends_field).map(|field| match field.strip_suffix(ends_field) {
        Some(plain) => read(plain) + &field[plain.len()..],
        None => read(field),
    });
    read.collect::<String>().chars().map(|c| c as u8).collect()
}

fn wrapped(field: &str) -> String {
    match field.parse::<i128>() {
        Ok(number) if number.unsigned_abs() > u64::from(u32::MAX).into() => {
            (number as i32).to_string()
        }
        _ => field.to_string(),
    }
}

fn default_age_of_an_hour(text: &[u8]) -> Vec<u8> {
    let lines = text.split_inclusive(|byte| *byte == b'\n').collect::<Vec<_>>();
    match lines.get(2) {
        Some(line) if line.starts_with(b"smooth=") => {
            [&lines[..2].concat(), &b"age=60\n"[..], &lines[2..].concat()].concat()
        }
        _ => text.to_vec(),
    }
}

#[test]
fn misreadings_of_a_text_are_seen() {
    let misreadings: [(&str, Misreading); 15] = [
        ("plus", |text| without(text, b'+')),
        ("space", |text| without(text, b' ')),
        ("carriage return", |text| without(text, b'\r')),
        ("NUL dropped", |text| without(text, 0)),
        ("NUL ends it", |text| text.split(|byte| *byte == 0).next().unwrap_or(text).to_vec()),
        ("seven bits", |text| text.iter().map(|byte| byte & 127).collect()),
        ("last line feed", |text| [text, if text.ends_with(b"\n") { b"" } else { b"\n" }].concat()),
        ("trailing line feed", |text| {
            text.strip_suffix(b"\n\n").map_or(text.to_vec(), |kept| [kept, b"\n"].concat())
        }),
        ("limit too low", |text| match text.len() {
            65_536 => [text, b"x"].concat(),
            _ => text.to_vec(),
        }),
        ("limit too high", |text| match text.len() {
            65_537 => text[..65_536].to_vec(),
            _ => text.to_vec(),
        }),
        ("default age", default_age_of_an_hour),
        ("leading zero", |text| {
            by_fields(text, |field| match field.strip_prefix('0') {
                Some(rest) if !rest.is_empty() => rest.to_string(),
                _ => field.to_string(),
            })
        }),
        ("minus zero", |text| by_fields(text, |field| field.replace("-0", "0"))),
        ("empty is zero", |text| {
            by_fields(
                text,
                |field| {
                    if field.is_empty() {
                        "0".to_string()
                    } else {
                        field.to_string()
                    }
                },
            )
        }),
        ("wraps", |text| by_fields(text, wrapped)),
    ];
    for (name, read) in misreadings {
        let subject = Misreads(read);
        let seen = (0..3_000).find(|i| TextCase::generate(7, *i).differs(&subject).is_some());
        assert!(seen.is_some(), "{name}");
    }
}
