//! A program that runs over many requests, asked on its standard input and
//! answering on its standard output. Its first request is a greeting, to see
//! that it is the program it should be.

use std::cell::RefCell;
use std::io::{self, BufRead, BufReader, Read, Write};
use std::process::{Child, ChildStdin, ChildStdout, Command, Stdio};
use std::thread::{spawn, JoinHandle};

const GREET: u32 = 0;

/// What the program is called, and the number with which it greets.
pub struct Greeting {
    pub name: &'static str,
    pub number: u32,
}

pub struct Running {
    child: Child,
    input: ChildStdin,
    output: BufReader<ChildStdout>,
    /// Gives the last line of its standard error, once that has ended.
    last_words: JoinHandle<String>,
}

impl Running {
    /// Starts a program with its arguments, split on spaces.
    pub fn start(command: &str, greeting: &Greeting) -> Result<Self, String> {
        let mut words = command.split_whitespace();
        let program = words.next().ok_or("an empty command")?;
        let mut child = Command::new(program)
            .args(words)
            .stdin(Stdio::piped())
            .stdout(Stdio::piped())
            .stderr(Stdio::piped())
            .spawn()
            .map_err(|error| error.to_string())?;
        let (Some(input), Some(output), Some(errors)) =
            (child.stdin.take(), child.stdout.take(), child.stderr.take())
        else {
            unreachable!("all three are piped");
        };
        let last_words = spawn(|| last_line(errors));
        Running { child, input, output: BufReader::new(output), last_words }.greeted(greeting)
    }

    /// Fails if something else was started.
    fn greeted(mut self, greeting: &Greeting) -> Result<Self, String> {
        match self.ask(&GREET.to_le_bytes()).and_then(|output| read_number(output)) {
            Ok(number) if number == greeting.number => Ok(self),
            Ok(_) => {
                self.end();
                Err(format!("it answers, but not as {} does", greeting.name))
            }
            Err(_) => Err(self.end()),
        }
    }

    /// Hands a request over; what comes next is its answer.
    pub fn ask(&mut self, request: &[u8]) -> io::Result<&mut BufReader<ChildStdout>> {
        self.input.write_all(request)?;
        Ok(&mut self.output)
    }

    /// How it ended. Killing it changes nothing if it has died by itself.
    pub fn end(self) -> String {
        let Running { mut child, input, output, last_words } = self;
        drop((input, output));
        let status = child.kill().and_then(|()| child.wait());
        let status = status.map_or_else(|error| error.to_string(), |status| status.to_string());
        match last_words.join() {
            Ok(line) if !line.is_empty() => format!("{status}, {line}"),
            _ => status,
        }
    }
}

/// A program that runs over all requests, and is started anew after one in
/// which it died.
pub struct Lasting {
    command: String,
    greeting: &'static Greeting,
    running: RefCell<Option<Running>>,
}

impl Lasting {
    /// Starts it: a program and its arguments, split on spaces.
    pub fn start(command: &str, greeting: &'static Greeting) -> Result<Self, String> {
        let running = RefCell::new(Some(Running::start(command, greeting)?));
        Ok(Lasting { command: command.to_string(), greeting, running })
    }

    /// Asks for a call of the archive behind it and reads the answer; a program
    /// that dies in it is a finding.
    pub fn ask<T>(
        &self,
        request: &[u8],
        read: impl FnOnce(&mut BufReader<ChildStdout>) -> io::Result<T>,
    ) -> Result<T, String> {
        let mut place = self.running.borrow_mut();
        let mut running = match place.take() {
            Some(running) => running,
            None => Running::start(&self.command, self.greeting)
                .map_err(|why| format!("{} does not start again: {why}", self.greeting.name))?,
        };
        match running.ask(request).and_then(read) {
            Ok(answer) => {
                *place = Some(running);
                Ok(answer)
            }
            Err(_) => Err(format!("the archive died in this call: {}", running.end())),
        }
    }
}

fn last_line(errors: impl Read) -> String {
    let lines = BufReader::new(errors).split(b'\n').map_while(Result::ok);
    let last = lines.last().unwrap_or_default();
    String::from_utf8_lossy(&last).trim().to_string()
}

pub fn put_numbers(bytes: &mut Vec<u8>, numbers: &[u32]) {
    bytes.extend(numbers.iter().flat_map(|number| number.to_le_bytes()));
}

pub fn read_number(input: &mut dyn Read) -> io::Result<u32> {
    let mut bytes = [0; 4];
    input.read_exact(&mut bytes)?;
    Ok(u32::from_le_bytes(bytes))
}

#[cfg(test)]
mod tests {
    use super::*;

    #[test]
    fn the_last_line_is_kept() {
        assert_eq!(last_line(&b"one\n\xFFtwo\n"[..]), "\u{FFFD}two");
        assert_eq!(last_line(&b""[..]), "");
    }
}
