//! The text program behind servers, each of which starts a process of it for
//! each text without loading it anew. `bridge/serve.c` has the protocol.

use crate::compare::{Answer, Subject};
use crate::program::answer_of;
use crate::running::{put_numbers, read_number, Greeting, Running};
use std::io::{self, Read};
use std::os::unix::process::ExitStatusExt;
use std::process::{ExitStatus, Output};
use std::sync::{Mutex, MutexGuard, PoisonError};

const RUN: u32 = 1;
const GREETING: Greeting = Greeting { name: "the server", number: 0x5365_7276 };

/// As many servers as texts are asked for at a time. One that dies is a
/// finding, and another is started in its place.
pub struct Servers {
    command: String,
    idle: Mutex<Vec<Running>>,
}

impl Servers {
    /// Starts the first: a program and its arguments, split on spaces.
    pub fn start(command: &str) -> Result<Self, String> {
        let first = Running::start(command, &GREETING)?;
        Ok(Servers { command: command.to_string(), idle: Mutex::new(vec![first]) })
    }

    fn idle(&self) -> MutexGuard<'_, Vec<Running>> {
        self.idle.lock().unwrap_or_else(PoisonError::into_inner)
    }

    fn run(&self, request: &[u8]) -> Answer<Output> {
        let idle = self.idle().pop();
        let mut server = match idle {
            Some(server) => server,
            None => Running::start(&self.command, &GREETING)
                .map_err(|why| format!("no other server starts: {why}"))?,
        };
        let length = u32::try_from(request.len()).expect("no text is that long");
        let mut asked = Vec::new();
        put_numbers(&mut asked, &[RUN, length]);
        asked.extend(request);
        match server.ask(&asked).and_then(|output| read_output(output)) {
            Ok(output) => {
                self.idle().push(server);
                Ok(output)
            }
            Err(_) => Err(format!("the server died with this text: {}", server.end())),
        }
    }
}

fn read_output(input: &mut dyn Read) -> io::Result<Output> {
    let status = ExitStatus::from_raw(read_number(input)? as i32);
    Ok(Output { status, stdout: read_bytes(input)?, stderr: read_bytes(input)? })
}

fn read_bytes(input: &mut dyn Read) -> io::Result<Vec<u8>> {
    let mut bytes = vec![0; read_number(input)? as usize];
    input.read_exact(&mut bytes)?;
    Ok(bytes)
}

impl Subject for Servers {
    fn text(&self, request: &[u8]) -> Answer<Vec<u8>> {
        answer_of(self.run(request)?)
    }
}
