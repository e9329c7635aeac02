//! The archive libtrial_smoothing.a, which is for tests alone, as a subject: its
//! one call is made by a program of its own. `bridge/smoothing.c` has the
//! protocol.

use crate::bridge::{put_column, Empty};
use crate::compare::{Answer, Subject};
use crate::patterned::BYTE_PATTERN;
use crate::running::{put_numbers, read_number, Greeting, Lasting};
use std::io::{self, Read};

const SMOOTH: u32 = 1;
static GREETING: Greeting = Greeting { name: "the bridge of smoothings", number: 0x536D_6F6F };

pub struct Trial {
    empty: Empty,
    program: Lasting,
}

impl Trial {
    /// Starts its program: a command and its arguments, split on spaces.
    pub fn start(command: &str, empty: Empty) -> Result<Self, String> {
        Ok(Trial { empty, program: Lasting::start(command, &GREETING)? })
    }
}

impl Subject for Trial {
    fn smooth(&self, nx: u32, ny: u32, values: &mut [i32]) -> Answer<bool> {
        let request = request(nx, ny, values, self.empty);
        let (returned, outside) = self.program.ask(&request, |output| read(output, values))?;
        match (returned, outside) {
            (0 | 1, 0) => Ok(returned == 1),
            (0 | 1, _) => Err("field is written outside its slice".to_string()),
            _ => Err(format!("the call gives {returned}, which is no bool")),
        }
    }
}

fn request(nx: u32, ny: u32, values: &[i32], empty: Empty) -> Vec<u8> {
    let mut bytes = Vec::new();
    let null = u32::from(empty == Empty::Null);
    put_numbers(&mut bytes, &[SMOOTH, null, BYTE_PATTERN.into(), nx, ny]);
    put_column(&mut bytes, values, i32::to_le_bytes);
    bytes
}

/// Fills the values in and gives what the call returned, and whether it wrote
/// outside them.
fn read(input: &mut dyn Read, values: &mut [i32]) -> io::Result<(u32, u32)> {
    let answer = (read_number(input)?, read_number(input)?);
    for value in values {
        *value = read_number(input)? as i32;
    }
    Ok(answer)
}
