//! plan check: says in one line for each file whether it and the .shx beside it are a pair. The line
//! is that of `paircheck`, and a plan may be of any size.

use crate::lines::{complain, is_option, json_name, json_string, say, shown};
use crate::{files, trouble, unknown, Status};
use mbenaruul::{Reason, Verdict};
use std::ffi::OsString;
use std::path::Path;

const USAGE: &str = "usage: plan check [--why] [--json] [--] FILE.shp ..";

const HELP: &str = "\
Says whether each .shp and the .shx beside it are a pair, in one line:
  yes records=R parts=P points=N   they are
  no rule=P11 record=2             they are not: the first rule that is broken, and where
  cannot read                      one of the two files is not there or cannot be read
Where several files are named, the file's name stands in front.

  --why    behind each no one more line: which field, what stands there, what should
  --json   an object for each file, on a line of its own, with the reason in it
  --       what follows are names

The rules P1 to P17 in plain words: docs/RULES.md.
Exit status: 0 for yes to all, 1 for a no, 2 if a file could not be read or a line not be printed.";

/// What was asked for.
#[derive(Default)]
struct Asked<'a> {
    why: bool,
    json: bool,
    help: bool,
    names: Vec<&'a OsString>,
}

pub fn run(arguments: &[OsString]) -> Status {
    let asked = match Asked::of(arguments) {
        Ok(asked) => asked,
        Err(option) => return unknown("plan check", option),
    };
    if asked.names.is_empty() {
        return if asked.help {
            say(format!("{USAGE}\n\n{HELP}"), Status::Yes)
        } else {
            trouble(USAGE)
        };
    }
    if asked.help {
        // a script that hands on a stray --help must not take the help's status for a yes
        complain("plan check: --help stands alone; the files are checked");
    }
    let check = |name: &&OsString| asked.say(name, &Found::of(name, asked.why || asked.json));
    asked.names.iter().map(check).max().unwrap_or(Status::Yes)
}

impl<'a> Asked<'a> {
    /// The options and the names; or the first option that there is not.
    fn of(arguments: &'a [OsString]) -> Result<Asked<'a>, &'a OsString> {
        let mut asked = Asked::default();
        let mut options = true;
        for argument in arguments {
            match argument.to_str() {
                _ if !options || !is_option(argument) => asked.names.push(argument),
                Some("--") => options = false,
                Some("--why") => asked.why = true,
                Some("--json") => asked.json = true,
                Some("--help" | "-h") => asked.help = true,
                _ => return Err(argument),
            }
        }
        Ok(asked)
    }

    fn say(&self, name: &OsString, found: &Found) -> Status {
        if self.json {
            return say(found.object(name), found.status());
        }
        if let Found::Nothing(why) = found {
            complain([b"plan: ", &shown(name)[..], b": ", why.as_bytes()].concat());
        }
        let said = self.say_line(name, &found.line(), found.status());
        match found {
            Found::Verdict(Verdict::No { .. }, reason) if self.why => {
                said.max(self.say_line(name, &text(reason), said))
            }
            _ => said,
        }
    }

    /// A line, with the file's name in front where there are several.
    fn say_line(&self, name: &OsString, line: &str, status: Status) -> Status {
        if self.names.len() == 1 {
            say(line, status)
        } else {
            say([&shown(name)[..], b": ", line.as_bytes()].concat(), status)
        }
    }
}

/// What was found of a plan.
enum Found {
    /// The verdict and, of a no, the reason, where it was asked for.
    Verdict(Verdict, Option<Reason>),
    /// The files could not be read, and why.
    Nothing(String),
}

impl Found {
    fn of(name: &OsString, with_reason: bool) -> Found {
        match files::read_pair(Path::new(name)) {
            Err(why) => Found::Nothing(why),
            Ok((shp, shx)) => {
                let verdict = Verdict::of(&shp, &shx);
                let reason = if with_reason {
                    verdict.why(&shp, &shx)
                } else {
                    None
                };
                Found::Verdict(verdict, reason)
            }
        }
    }

    fn status(&self) -> Status {
        match self {
            Found::Verdict(Verdict::Yes(_), _) => Status::Yes,
            Found::Verdict(Verdict::No { .. }, _) => Status::No,
            Found::Nothing(_) => Status::Trouble,
        }
    }

    fn line(&self) -> String {
        match self {
            Found::Verdict(verdict, _) => verdict.to_string(),
            Found::Nothing(_) => "cannot read".to_string(),
        }
    }

    fn object(&self, name: &OsString) -> String {
        let members = match self {
            Found::Verdict(Verdict::Yes(t), _) => format!(
                "\"verdict\":\"yes\",\"records\":{},\"parts\":{},\"points\":{}",
                t.records, t.parts, t.points
            ),
            Found::Verdict(Verdict::No { rule, record }, reason) => format!(
                "\"verdict\":\"no\",\"rule\":\"P{rule}\",\"record\":{record},\"reason\":{}",
                json_string(&text(reason))
            ),
            Found::Nothing(why) => {
                format!(
                    "\"verdict\":\"cannot read\",\"reason\":{}",
                    json_string(why)
                )
            }
        };
        format!("{{{},{members}}}", json_name(name))
    }
}

/// The reason's text. The crate's tests find a reason for each rule and for damaged pairs; should
/// there be none, the no stands all the same.
fn text(reason: &Option<Reason>) -> String {
    match reason {
        Some(reason) => reason.to_string(),
        None => "no reason was found; docs/RULES.md says what the rule asks".to_string(),
    }
}
