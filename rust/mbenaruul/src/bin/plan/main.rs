//! plan WORD ..: what there is to do with plans, a word for each. Its exit status is 0 for a yes, 1
//! for a no and 2 for anything else, also where what was found could not be printed.

mod check;
mod files;
mod lines;

use lines::{complain, say, shown};
use std::ffi::OsString;
use std::process::ExitCode;

const USAGE: &str = "usage: plan WORD ..";

const HELP: &str = "\
words:
  check   says of each .shp whether it and the .shx beside it are a pair

`plan WORD --help` says more of a word, `plan --version` which version this is.";

/// What was found out, from the best to the worst: the worst of all is the exit status.
#[derive(Clone, Copy, PartialEq, Eq, PartialOrd, Ord)]
pub enum Status {
    Yes = 0,
    No = 1,
    Trouble = 2,
}

fn main() -> ExitCode {
    let arguments: Vec<OsString> = std::env::args_os().skip(1).collect();
    ExitCode::from(run(&arguments) as u8)
}

fn run(arguments: &[OsString]) -> Status {
    let (word, rest) = match arguments.split_first() {
        Some(split) => split,
        None => return trouble(USAGE),
    };
    match word.to_str() {
        Some("check") => check::run(rest),
        Some(alone @ ("--help" | "-h" | "--version")) if !rest.is_empty() => {
            trouble(&format!("plan: {alone} stands alone"))
        }
        Some("--help" | "-h") => say(format!("{USAGE}\n\n{HELP}"), Status::Yes),
        Some("--version") => say(concat!("plan ", env!("CARGO_PKG_VERSION")), Status::Yes),
        _ => unknown("plan", word),
    }
}

/// An argument that is none of the words or options: one line, and nothing is done.
fn unknown(command: &str, argument: &OsString) -> Status {
    let what = if lines::is_option(argument) {
        "option"
    } else {
        "word"
    };
    let mut line = format!("{command}: unknown {what} ").into_bytes();
    line.extend(shown(argument));
    line.extend(format!("; see {command} --help").bytes());
    complain(line);
    Status::Trouble
}

fn trouble(line: &str) -> Status {
    complain(line);
    Status::Trouble
}

#[cfg(test)]
mod tests {
    use super::*;

    #[test]
    fn trouble_wins_over_no_and_no_over_yes() {
        assert!(Status::Yes < Status::No && Status::No < Status::Trouble);
    }
}
