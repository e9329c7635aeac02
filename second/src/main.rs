//! The command line of the second program: text, generate, survey, compare.

#![forbid(unsafe_code)]

use second::bridge::{Bridge, Empty};
use second::cases::{AnalysisCase, ReadingCase, SummaryCase, TextCase, WindowCase};
use second::compare::{Case, Own, Subject};
use second::field_case::FieldCase;
use second::near::STRIDE;
use second::program::Program;
use second::real::DATA;
use second::screen_case::ScreenCase;
use second::serve::Servers;
use second::survey::{
    compare_kind, compare_near, compare_real, compare_real_texts, compare_texts, survey, Counts,
};
use second::text;
use second::trial::Trial;
use second::units::MOST_TEXT;
use std::env::{args, var_os};
use std::io::{self, Read, Write};
use std::process::ExitCode;

const SEED: u64 = 20_261_947;
const COUNT: u64 = 20_000;
const FIELDS: u64 = 5_000;
const USAGE: &str = "use: second text | second generate KIND SEED COUNT | \
    second survey [SEED [COUNT]] | second compare KIND [SEED [COUNT]] | \
    second compare near | second compare real | second compare real-text";
const BRIDGE: &str = "SOSNYAVIK_BRIDGE";
const BRIDGE_HELP: &str = "in the repository's root, run second/bridge/build FOLDER \
    build/bridge/bridge with the folder of libclause.a, and set SOSNYAVIK_BRIDGE to \
    'scripts/x86 run build/bridge/bridge'";

const SMOOTHING: &str = "SOSNYAVIK_SMOOTHING";
const SMOOTHING_HELP: &str = "in the repository's root, run second/bridge/build-smoothing FOLDER \
    build/bridge/smoothing with the folder of libtrial_smoothing.a, and set SOSNYAVIK_SMOOTHING \
    to 'scripts/x86 run build/bridge/smoothing'";

const ANALYSE: &str = "SOSNYAVIK_ANALYSE";
const ANALYSE_HELP: &str = "build the text program and set SOSNYAVIK_ANALYSE to the command \
    that runs it, such as 'target/bin/analyse' or 'scripts/x86 run target/bin/analyse'";
const SERVE: &str = "SOSNYAVIK_SERVE";
const SERVE_HELP: &str = "in the repository's root, run scripts/built analyse and \
    second/bridge/build-serve target/obj build/bridge/serve, and set \
    SOSNYAVIK_SERVE to 'scripts/x86 run build/bridge/serve'";

/// What went wrong, with the exit code that says whose fault it was.
enum Wrong {
    Asked(String),
    Found(String),
}

fn main() -> ExitCode {
    let arguments: Vec<String> = args().skip(1).collect();
    let arguments: Vec<&str> = arguments.iter().map(String::as_str).collect();
    match obey(&arguments) {
        Ok(()) => ExitCode::SUCCESS,
        Err(Wrong::Found(message)) => {
            eprintln!("second: {message}");
            ExitCode::FAILURE
        }
        Err(Wrong::Asked(message)) => {
            eprintln!("second: {message}");
            ExitCode::from(2)
        }
    }
}

fn obey(arguments: &[&str]) -> Result<(), Wrong> {
    match *arguments {
        ["text"] => answer_text(),
        ["generate", kind, seed, count] => generate(kind, seed, count),
        ["survey"] => run_survey(None, None),
        ["survey", seed] => run_survey(Some(seed), None),
        ["survey", seed, count] => run_survey(Some(seed), Some(count)),
        ["compare", "near"] => compare_near_texts(),
        ["compare", "real"] => compare_real_calls(),
        ["compare", "real-text"] => compare_real_text(),
        ["compare", "near", ..] => Err(seedless("near", "set SOSNYAVIK_STRIDE instead")),
        ["compare", kind @ ("real" | "real-text"), ..] => Err(seedless(kind, "leave them out")),
        ["compare", kind] => compare(kind, None, None),
        ["compare", kind, seed] => compare(kind, Some(seed), None),
        ["compare", kind, seed, count] => compare(kind, Some(seed), Some(count)),
        [] => Err(Wrong::Asked(format!("no command given; {USAGE}"))),
        _ => {
            let given = arguments.join(" ");
            Err(Wrong::Asked(format!("not a command: {given:?}; {USAGE}")))
        }
    }
}

fn seedless(kind: &str, instead: &str) -> Wrong {
    Wrong::Asked(format!("compare {kind} takes no seed and no count; {instead}"))
}

fn answer_text() -> Result<(), Wrong> {
    let mut request = Vec::new();
    // One byte past the limit is enough to refuse what is longer.
    io::stdin()
        .take(MOST_TEXT as u64 + 1)
        .read_to_end(&mut request)
        .map_err(|error| Wrong::Found(format!("the request could not be read: {error}")))?;
    print(&text::answer(&request))
}

fn generate(kind: &str, seed: &str, count: &str) -> Result<(), Wrong> {
    let seed = number("SEED", seed)?;
    let count = number("COUNT", count)?;
    match kind {
        "analysis" => print_cases::<AnalysisCase>(seed, count),
        "window" => print_cases::<WindowCase>(seed, count),
        "windows" => print_cases::<ScreenCase>(seed, count),
        "reading" => print_cases::<ReadingCase>(seed, count),
        "summary" => print_cases::<SummaryCase>(seed, count),
        "text" => print_cases::<TextCase>(seed, count),
        "smoothing" => print_cases::<FieldCase>(seed, count),
        _ => Err(no_such_kind(kind)),
    }
}

fn no_such_kind(kind: &str) -> Wrong {
    let kinds = "analysis, window, windows, reading, summary, text or smoothing";
    Wrong::Asked(format!("no such kind: {kind:?}; give {kinds}"))
}

/// Each case is preceded by a line that gives its length in bytes.
fn print_cases<C: Case>(seed: u64, count: u64) -> Result<(), Wrong> {
    for index in 0..count {
        let case = C::generate(seed, index).plain();
        print(format!("{}\n", case.len()).as_bytes())?;
        print(&case)?;
    }
    Ok(())
}

fn print(bytes: &[u8]) -> Result<(), Wrong> {
    let mut out = io::stdout().lock();
    out.write_all(bytes)
        .and_then(|()| out.flush())
        .map_err(|error| Wrong::Found(format!("the output could not be written: {error}")))
}

fn run_survey(seed: Option<&str>, count: Option<&str>) -> Result<(), Wrong> {
    let (seed, requests) = seed_and_count(seed, count)?;
    let fields = count_of(count, FIELDS)?;
    survey(&Own, seed, Counts { requests, fields }, &mut io::stdout()).map_err(Wrong::Found)
}

/// The archive beside the second program, over the cases of one kind; for
/// texts, the text program, and for smoothings the archive of their own.
fn compare(kind: &str, seed: Option<&str>, count: Option<&str>) -> Result<(), Wrong> {
    let compare_kind = match kind {
        "analysis" => compare_kind::<AnalysisCase>,
        "window" => compare_kind::<WindowCase>,
        "windows" => compare_kind::<ScreenCase>,
        "reading" => compare_kind::<ReadingCase>,
        "summary" => compare_kind::<SummaryCase>,
        "text" => {
            let (seed, count) = seed_and_count(seed, count)?;
            return compare_texts(&*program()?, seed, count, &mut io::stdout())
                .map_err(Wrong::Found);
        }
        "smoothing" => {
            let (seed, count) = (seed_of(seed)?, count_of(count, FIELDS)?);
            return compare_kind::<FieldCase>(&trial()?, seed, count, &mut io::stdout())
                .map_err(Wrong::Found);
        }
        _ => return Err(no_such_kind(kind)),
    };
    let (seed, count) = seed_and_count(seed, count)?;
    compare_kind(&bridge()?, seed, count, &mut io::stdout()).map_err(Wrong::Found)
}

/// The text program beside the second program, over the texts that are one
/// byte away from a given one.
fn compare_near_texts() -> Result<(), Wrong> {
    let name = "SOSNYAVIK_STRIDE";
    let stride = setting(name, None, STRIDE)?;
    if stride == 0 {
        return Err(Wrong::Asked(format!("{name} is 0; give 1 for all texts, or more")));
    }
    compare_near(&*program()?, stride, &mut io::stdout()).map_err(Wrong::Found)
}

/// The archive beside the second program, over the stations of document 002.
fn compare_real_calls() -> Result<(), Wrong> {
    compare_real(&bridge()?, DATA, &mut io::stdout()).map_err(Wrong::Found)
}

/// The text program beside it, over the same.
fn compare_real_text() -> Result<(), Wrong> {
    compare_real_texts(&*program()?, DATA, &mut io::stdout()).map_err(Wrong::Found)
}

/// The text program that the environment names, by its server if that is set.
fn program() -> Result<Box<dyn Subject + Sync>, Wrong> {
    if let Some(command) = var_os(SERVE) {
        let command = command.to_string_lossy();
        let servers =
            Servers::start(&command).map_err(|why| unstarted(SERVE, &command, &why, SERVE_HELP))?;
        return Ok(Box::new(servers));
    }
    let Some(command) = var_os(ANALYSE) else {
        return Err(Wrong::Asked(format!("{ANALYSE} is not set; {ANALYSE_HELP}")));
    };
    let command = command.to_string_lossy();
    let program =
        Program::find(&command).map_err(|why| unstarted(ANALYSE, &command, &why, ANALYSE_HELP))?;
    Ok(Box::new(program))
}

fn unstarted(name: &str, command: &str, why: &str, help: &str) -> Wrong {
    Wrong::Asked(format!("{name} is {command:?}, which does not start: {why}; {help}"))
}

/// The bridge that the environment names, with the archive behind it.
fn bridge() -> Result<Bridge, Wrong> {
    started(Bridge::start, BRIDGE, BRIDGE_HELP)
}

/// The same for the archive of smoothings.
fn trial() -> Result<Trial, Wrong> {
    started(Trial::start, SMOOTHING, SMOOTHING_HELP)
}

/// What a variable's command starts, for calls of an archive.
fn started<T>(
    start: fn(&str, Empty) -> Result<T, String>,
    name: &str,
    help: &str,
) -> Result<T, Wrong> {
    let empty = empty()?;
    let Some(command) = var_os(name) else {
        return Err(Wrong::Asked(format!("{name} is not set; {help}")));
    };
    let command = command.to_string_lossy();
    start(&command, empty).map_err(|why| unstarted(name, &command, &why, help))
}

fn empty() -> Result<Empty, Wrong> {
    let name = "SOSNYAVIK_EMPTY";
    match var_os(name) {
        None => Ok(Empty::default()),
        Some(value) if value == "dangling" => Ok(Empty::Dangling),
        Some(value) if value == "null" => Ok(Empty::Null),
        Some(value) => Err(Wrong::Asked(format!("{name} is {value:?}; give dangling or null"))),
    }
}

fn seed_and_count(seed: Option<&str>, count: Option<&str>) -> Result<(u64, u64), Wrong> {
    Ok((seed_of(seed)?, count_of(count, COUNT)?))
}

fn seed_of(seed: Option<&str>) -> Result<u64, Wrong> {
    setting("SOSNYAVIK_SEED", seed, SEED)
}

fn count_of(count: Option<&str>, default: u64) -> Result<u64, Wrong> {
    match setting("SOSNYAVIK_COUNT", count, default)? {
        0 => {
            let message = "a run of 0 cases shows nothing; give a count of 1 or more";
            Err(Wrong::Asked(message.to_string()))
        }
        count => Ok(count),
    }
}

/// The environment's number where it is set, else the argument's, else the
/// default.
fn setting(name: &str, argument: Option<&str>, default: u64) -> Result<u64, Wrong> {
    match (var_os(name), argument) {
        (Some(value), _) => number(name, &value.to_string_lossy()),
        (None, Some(argument)) => number("the argument", argument),
        (None, None) => Ok(default),
    }
}

fn number(name: &str, value: &str) -> Result<u64, Wrong> {
    value.parse().map_err(|_| {
        Wrong::Asked(format!("{name} is {value:?}; give a whole number from 0 to {}", u64::MAX))
    })
}
