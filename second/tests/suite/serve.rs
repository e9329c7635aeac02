//! The server of the text program, built for this processor around a stub.

use crate::command::second;
use second::compare::Subject;
use second::serve::Servers;
use std::process::Command;
use std::sync::OnceLock;
use std::thread::scope;

const PROGRAM: &str = concat!(env!("CARGO_TARGET_TMPDIR"), "/serve");

fn built() -> &'static str {
    static BUILT: OnceLock<()> = OnceLock::new();
    BUILT.get_or_init(|| {
        let flags = ["-std=c11", "-Wall", "-Wextra", "-Werror", "-Wl,--wrap=main", "-o", PROGRAM];
        let sources = ["bridge/serve.c", "tests/suite/program_stub.c"];
        let status = Command::new("cc").args(flags).args(sources).status();
        assert!(status.expect("a C compiler").success());
    });
    PROGRAM
}

fn start() -> Servers {
    Servers::start(built()).expect("it starts")
}

#[test]
fn texts_are_handed_over_and_answers_back() {
    let servers = start();
    let long: Vec<u8> = (0..300_000_u32).map(|at| at as u8).collect();
    for text in [&b""[..], b"\0\n", &long, b"x", &long[..65_537]] {
        assert_eq!(servers.text(text), Ok(text.to_vec()));
    }
}

/// More texts than a server learns, from two sides at once.
#[test]
fn many_texts_keep_apart() {
    let servers = start();
    let ask = |from: usize| {
        for length in from..from + 400 {
            let text = vec![b'a' + (length % 26) as u8; length];
            assert_eq!(servers.text(&text), Ok(text));
        }
    };
    scope(|scope| {
        scope.spawn(|| ask(1_000));
        ask(0);
    });
}

#[test]
fn faults_of_the_program_are_seen_and_the_next_text_is_answered() {
    let servers = start();
    for _ in 0..3 {
        let seen = |fault: &[u8]| servers.text(fault).expect_err("a fault");
        assert_eq!(seen(b"status"), "the program ended with exit status: 3");
        assert_eq!(seen(b"errors"), "standard error is all is well\\n, not empty");
        assert_eq!(seen(b"crash"), "the program ended with signal: 6 (SIGABRT)");
        assert_eq!(servers.text(b"again"), Ok(b"again".to_vec()));
    }
}

#[test]
fn a_server_that_dies_is_a_finding_and_another_answers() {
    let servers = start();
    for _ in 0..3 {
        let died = servers.text(b"kills the server").expect_err("it dies");
        assert_eq!(died, "the server died with this text: signal: 9 (SIGKILL)");
        assert_eq!(servers.text(b"again"), Ok(b"again".to_vec()));
    }
}

#[test]
fn compare_asks_the_server_where_it_is_set() {
    let environment = [("SOSNYAVIK_SERVE", built()), ("SOSNYAVIK_ANALYSE", "/nowhere/analyse")];
    let output = second(&["compare", "near"], &environment, "");
    let said = String::from_utf8_lossy(&output.stderr).into_owned();
    assert_eq!(output.status.code(), Some(1), "{said}");
    assert!(said.starts_with("second: near case 0 of stride 23: answer line 1 is "), "{said}");
}

#[test]
fn compare_says_how_to_get_a_server() {
    let asked = |server: &str| {
        let output = second(&["compare", "text", "3", "20"], &[("SOSNYAVIK_SERVE", server)], "");
        let message = String::from_utf8_lossy(&output.stderr).into_owned();
        assert_eq!((output.status.code(), message.lines().count()), (Some(2), 1), "{message}");
        assert!(message.contains("second/bridge/build-serve target/obj"), "{message}");
        message
    };
    assert!(asked(" ").contains("an empty command"));
    assert!(asked("/nowhere/serve").contains("No such file"));
    assert!(asked("false").contains("exit status: 1"));
    assert!(asked("cat").contains("not as the server does"));
}
