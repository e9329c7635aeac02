//! The command line: answers, exit codes and one-line messages.

use crate::{ANSWER, REQUEST};
use second::compare::Case;
use second::field_case::FieldCase;
use second::screen_case::ScreenCase;
use std::io::Write;
use std::process::{Command, Output, Stdio};

pub fn second(arguments: &[&str], environment: &[(&str, &str)], input: &str) -> Output {
    let mut child = Command::new(env!("CARGO_BIN_EXE_second"))
        .args(arguments)
        .env_remove("SOSNYAVIK_SEED")
        .env_remove("SOSNYAVIK_COUNT")
        .env_remove("SOSNYAVIK_EMPTY")
        .env_remove("SOSNYAVIK_BRIDGE")
        .env_remove("SOSNYAVIK_SMOOTHING")
        .env_remove("SOSNYAVIK_ANALYSE")
        .env_remove("SOSNYAVIK_SERVE")
        .env_remove("SOSNYAVIK_STRIDE")
        .envs(environment.iter().copied())
        .stdin(Stdio::piped())
        .stdout(Stdio::piped())
        .stderr(Stdio::piped())
        .spawn()
        .expect("the program starts");
    child.stdin.take().expect("piped").write_all(input.as_bytes()).expect("it is read");
    child.wait_with_output().expect("it ends")
}

#[test]
fn text_answers_with_success_also_when_refused() {
    let output = second(&["text"], &[], REQUEST);
    assert_eq!((output.status.code(), &output.stdout[..]), (Some(0), ANSWER.as_bytes()));
    let output = second(&["text"], &[], "");
    assert_eq!((output.status.code(), &output.stdout[..]), (Some(0), &b"refusal=9\nplace=1\n"[..]));
}

#[test]
fn generate_prints_lengths_and_texts() {
    let output = second(&["generate", "text", "3", "2"], &[], "");
    let first = second::generate_text::text(3, 0).0;
    let start = [format!("{}\n", first.len()).as_bytes(), &first].concat();
    assert!(output.status.success() && output.stdout.starts_with(&start));
}

#[test]
fn generate_prints_screens() {
    let output = second(&["generate", "windows", "3", "2"], &[], "");
    let first = ScreenCase::generate(3, 0).plain();
    let start = [format!("{}\n", first.len()).as_bytes(), &first].concat();
    assert!(output.status.success() && output.stdout.starts_with(&start));
    assert!(first.starts_with(b"left="));
}

#[test]
fn generate_prints_fields() {
    let output = second(&["generate", "smoothing", "3", "2"], &[], "");
    let first = FieldCase::generate(3, 0).plain();
    let start = [format!("{}\n", first.len()).as_bytes(), &first].concat();
    assert!(output.status.success() && output.stdout.starts_with(&start));
    assert!(first.starts_with(b"nx,ny="));
}

#[test]
fn the_environment_overrides_seed_and_count() {
    let environment = [("SOSNYAVIK_SEED", "9"), ("SOSNYAVIK_COUNT", "1")];
    let output = second(&["survey", "1", "20"], &environment, "");
    assert!(output.status.success() && output.stdout.starts_with(b"seed 9, count 1\n"));
    let said = String::from_utf8_lossy(&output.stdout).into_owned();
    assert!(said.contains("\nsmoothing, 1 cases\n"), "{said}");
}

/// What is said where a variable names no program that makes the calls.
fn says_how_to_get(kind: &str, variable: &str, help: &str, greets: &str) {
    let asked = |environment: &[(&str, &str)]| {
        let output = second(&["compare", kind, "3", "20"], environment, "");
        let message = String::from_utf8_lossy(&output.stderr).into_owned();
        assert_eq!((output.status.code(), message.lines().count()), (Some(2), 1), "{message}");
        assert!(message.contains(help), "{message}");
        message
    };
    assert!(asked(&[]).contains(&format!("{variable} is not set")));
    assert!(asked(&[(variable, " ")]).contains("an empty command"));
    assert!(asked(&[(variable, "/nowhere/bridge")]).contains("No such file"));
    assert!(asked(&[(variable, "false")]).contains("exit status: 1"));
    assert!(asked(&[(variable, "cat")]).contains(&format!("not as {greets} does")));
}

#[test]
fn compare_says_how_to_get_a_bridge() {
    let help = "run second/bridge/build FOLDER";
    says_how_to_get("analysis", "SOSNYAVIK_BRIDGE", help, "the bridge");
    let help = "run second/bridge/build-smoothing FOLDER";
    says_how_to_get("smoothing", "SOSNYAVIK_SMOOTHING", help, "the bridge of smoothings");
}

#[test]
fn compare_says_how_to_get_the_program() {
    let asked = |environment: &[(&str, &str)]| {
        let output = second(&["compare", "text", "3", "20"], environment, "");
        let message = String::from_utf8_lossy(&output.stderr).into_owned();
        assert_eq!((output.status.code(), message.lines().count()), (Some(2), 1), "{message}");
        assert!(message.contains("set SOSNYAVIK_ANALYSE to the command"), "{message}");
        message
    };
    assert!(asked(&[]).contains("SOSNYAVIK_ANALYSE is not set"));
    assert!(asked(&[("SOSNYAVIK_ANALYSE", " ")]).contains("an empty command"));
    assert!(asked(&[("SOSNYAVIK_ANALYSE", "/nowhere/analyse")]).contains("No such file"));
}

#[test]
fn compare_reports_a_bridge_that_dies() {
    let environment = [("SOSNYAVIK_BRIDGE", "sh tests/suite/dying_bridge.sh")];
    let output = second(&["compare", "analysis", "3", "20"], &environment, "");
    let message = String::from_utf8_lossy(&output.stderr).into_owned();
    assert_eq!(output.status.code(), Some(1), "{message}");
    let died = "the archive died in this call: exit status: 7, shot down\n";
    assert!(message.contains(&format!("analysis case 0 of seed 3: {died}")), "{message}");
    assert!(message.contains("\nsmallest failing request:\n"), "{message}");
}

#[test]
fn bad_arguments_give_one_line_and_two() {
    let wrong = |arguments: &[&str], environment: &[(&str, &str)]| {
        let output = second(arguments, environment, "");
        assert_eq!(output.status.code(), Some(2), "{arguments:?}");
        let message = String::from_utf8_lossy(&output.stderr).into_owned();
        assert_eq!((message.lines().count(), output.stdout.len()), (1, 0), "{message}");
    };
    wrong(&[], &[]);
    wrong(&["analyse"], &[]);
    wrong(&["text", "more"], &[]);
    wrong(&["survey", "x"], &[]);
    wrong(&["survey", "1", "-5"], &[]);
    wrong(&["survey", "1", "0"], &[]);
    wrong(&["generate", "maps", "1", "1"], &[]);
    wrong(&["generate", "text", "1", "many"], &[]);
    wrong(&["compare"], &[]);
    wrong(&["compare", "maps"], &[]);
    wrong(&["compare", "window"], &[]);
    wrong(&["compare", "windows"], &[]);
    wrong(&["compare", "text"], &[]);
    wrong(&["compare", "near"], &[]);
    wrong(&["compare", "real"], &[]);
    wrong(&["compare", "real", "1"], &[]);
    wrong(&["compare", "real-text"], &[]);
    wrong(&["compare", "real-text", "1"], &[]);
    wrong(&["compare", "near", "1"], &[]);
    wrong(&["compare", "near"], &[("SOSNYAVIK_STRIDE", "0")]);
    wrong(&["compare", "near"], &[("SOSNYAVIK_STRIDE", "all")]);
    wrong(&["compare", "analysis", "1", "0"], &[]);
    wrong(&["compare", "analysis"], &[("SOSNYAVIK_EMPTY", "nil")]);
    wrong(&["compare", "smoothing"], &[("SOSNYAVIK_EMPTY", "nil")]);
    wrong(&["compare", "smoothing", "1", "0"], &[]);
    wrong(&["compare", "smoothing", "1", "2", "3"], &[]);
    wrong(&["survey"], &[("SOSNYAVIK_COUNT", "1e3")]);
    wrong(&["survey"], &[("SOSNYAVIK_SEED", "")]);
}
