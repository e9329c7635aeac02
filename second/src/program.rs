//! The text program as a subject: a process for each request, which is handed
//! the text on its standard input and ends with its answer.

use crate::compare::{Answer, Subject};
use std::io::{self, Write};
use std::process::{Command, Output, Stdio};
use std::thread::scope;

pub struct Program {
    /// The program and its arguments.
    words: Vec<String>,
}

impl Program {
    /// The command, split on spaces; it is started once to see that it can be.
    pub fn find(command: &str) -> Result<Self, String> {
        let words: Vec<String> = command.split_whitespace().map(str::to_string).collect();
        if words.is_empty() {
            return Err("an empty command".to_string());
        }
        let program = Program { words };
        program.run(b"").map_err(|error| error.to_string())?;
        Ok(program)
    }

    /// The text is written by a thread of its own, so that a program which
    /// answers early does not wait for us while we wait for it.
    fn run(&self, request: &[u8]) -> io::Result<Output> {
        let mut child = Command::new(&self.words[0])
            .args(&self.words[1..])
            .stdin(Stdio::piped())
            .stdout(Stdio::piped())
            .stderr(Stdio::piped())
            .spawn()?;
        let input = child.stdin.take();
        scope(|scope| {
            scope.spawn(move || {
                // A program need not read more than one byte past the limit.
                input.map(|mut input| input.write_all(request))
            });
            child.wait_with_output()
        })
    }
}

impl Subject for Program {
    fn text(&self, request: &[u8]) -> Answer<Vec<u8>> {
        let output = self.run(request);
        answer_of(output.map_err(|error| format!("the program could not be run: {error}"))?)
    }
}

/// The answer of a process. A refusal is one too, so the status is always 0.
pub fn answer_of(output: Output) -> Answer<Vec<u8>> {
    let errors = output.stderr.escape_ascii();
    match (output.status.success(), output.stderr.is_empty()) {
        (true, true) => Ok(output.stdout),
        (true, false) => Err(format!("standard error is {errors}, not empty")),
        (false, true) => Err(format!("the program ended with {}", output.status)),
        (false, false) => Err(format!("the program ended with {}, {errors}", output.status)),
    }
}
