//! Parses the arguments into a command.

use std::ffi::{OsStr, OsString};

use crate::cells::Selection;
use crate::fault::Fault;
use crate::help::{self, Topic};
use crate::input::STANDARD_STREAM;
use crate::names;
use crate::replace::Replacement;

/// A parsed command.
pub enum Command {
    Help(Topic),
    Version,
    Check {
        files: Vec<OsString>,
    },
    Report {
        file: OsString,
        json: bool,
    },
    Cells {
        file: OsString,
        selection: Selection,
    },
    Compare {
        files: [OsString; 2],
        numbers: bool,
    },
    Repack {
        from: OsString,
        to: OsString,
    },
    Replace {
        replacement: Replacement,
        to: OsString,
    },
}

/// A range of numbers, both ends included. Without a last number it goes to the end.
#[derive(Clone, Copy)]
pub struct Range {
    pub first: usize,
    pub last: Option<usize>,
}

pub fn parse(arguments: Vec<OsString>) -> Result<Command, Fault> {
    let mut arguments = arguments.into_iter();
    let Some(command) = arguments.next() else {
        return Err(Topic::Program.fault("no command is named"));
    };
    let rest: Vec<OsString> = arguments.collect();
    match command.to_str() {
        Some("--help" | "-h") => Ok(Command::Help(Topic::Program)),
        Some("help") => help(&rest),
        Some("--version" | "-V") => Ok(Command::Version),
        Some("check") => check(rest),
        Some("report") => report(rest),
        Some("cells") => cells(rest),
        Some("compare") => compare(rest),
        Some("repack") => repack(rest),
        Some("replace") => replace(rest),
        _ => Err(Topic::Program.fault(format!("there is no command '{}'", names::file(&command)))),
    }
}

/// `dbm0 help`, `dbm0 help check`.
fn help(rest: &[OsString]) -> Result<Command, Fault> {
    match rest {
        [] => Ok(Command::Help(Topic::Program)),
        [command] => match command.to_str().and_then(help::topic) {
            Some(topic) => Ok(Command::Help(topic)),
            None => {
                Err(Topic::Program.fault(format!("there is no command '{}'", names::file(command))))
            }
        },
        _ => Err(Topic::Program.fault("help takes one command")),
    }
}

/// The arguments of a command, parsed: positional arguments, and options with their values.
struct ParsedArguments {
    positional: Vec<OsString>,
    options: Vec<(&'static str, OsString)>,
    help: bool,
}

/// The options that a command accepts, and whether each takes a value.
type Options = &'static [(&'static str, bool)];

impl ParsedArguments {
    fn new(
        topic: Topic,
        arguments: Vec<OsString>,
        known: Options,
    ) -> Result<ParsedArguments, Fault> {
        let mut parsed = ParsedArguments {
            positional: Vec::new(),
            options: Vec::new(),
            help: false,
        };
        let mut arguments = arguments.into_iter();
        while let Some(argument) = arguments.next() {
            if argument == "--" {
                parsed.positional.extend(arguments);
                break;
            } else if argument == "--help" || argument == "-h" {
                parsed.help = true;
            } else if argument != STANDARD_STREAM && argument.as_encoded_bytes().starts_with(b"-") {
                parsed.option(topic, &argument, &mut arguments, known)?;
            } else {
                parsed.positional.push(argument);
            }
        }
        Ok(parsed)
    }

    /// `--rows 0-15`, `--rows=0-15`, `--json`.
    fn option(
        &mut self,
        topic: Topic,
        argument: &OsStr,
        rest: &mut impl Iterator<Item = OsString>,
        known: Options,
    ) -> Result<(), Fault> {
        let text = argument.to_str().unwrap_or_default();
        let (given, joined) = match text.split_once('=') {
            Some((given, value)) => (given, Some(OsString::from(value))),
            None => (text, None),
        };
        let Some(&(option, has_value)) = known.iter().find(|(option, _)| *option == given) else {
            return Err(topic.fault(format!(
                "there is no option '{}' (a file of that name is './{0}')",
                names::file(argument)
            )));
        };
        if self.options.iter().any(|(already, _)| *already == option) {
            return Err(topic.fault(format!("{option} stands twice")));
        }
        let value = match (has_value, joined) {
            (true, Some(value)) => value,
            (true, None) => rest
                .next()
                .ok_or_else(|| topic.fault(format!("{option} needs a value")))?,
            (false, Some(_)) => return Err(topic.fault(format!("{option} takes no value"))),
            (false, None) => OsString::new(),
        };
        self.options.push((option, value));
        Ok(())
    }

    fn value(&self, option: &str) -> Option<&OsStr> {
        let found = self.options.iter().find(|(given, _)| *given == option);
        found.map(|(_, value)| value.as_os_str())
    }
}

fn check(arguments: Vec<OsString>) -> Result<Command, Fault> {
    let parsed = ParsedArguments::new(Topic::Check, arguments, &[])?;
    if parsed.help {
        return Ok(Command::Help(Topic::Check));
    }
    let files = parsed.positional;
    if files.is_empty() {
        return Err(Topic::Check.fault("no file is named"));
    }
    read_once(Topic::Check, &files)?;
    Ok(Command::Check { files })
}

/// At most one of the files is standard input.
fn read_once(topic: Topic, files: &[OsString]) -> Result<(), Fault> {
    match files.iter().filter(|file| *file == STANDARD_STREAM).count() {
        0 | 1 => Ok(()),
        _ => Err(topic.fault("standard input can be read only once")),
    }
}

fn report(arguments: Vec<OsString>) -> Result<Command, Fault> {
    let parsed = ParsedArguments::new(Topic::Report, arguments, &[("--json", false)])?;
    if parsed.help {
        return Ok(Command::Help(Topic::Report));
    }
    let json = parsed.value("--json").is_some();
    match <[OsString; 1]>::try_from(parsed.positional) {
        Ok([file]) => Ok(Command::Report { file, json }),
        Err(_) => Err(Topic::Report.fault("report takes one file")),
    }
}

fn cells(arguments: Vec<OsString>) -> Result<Command, Fault> {
    let known = &[("--rows", true), ("--tracks", true)];
    let parsed = ParsedArguments::new(Topic::Cells, arguments, known)?;
    if parsed.help {
        return Ok(Command::Help(Topic::Cells));
    }
    let rows = range(&parsed, "--rows")?;
    let tracks = range(&parsed, "--tracks")?;
    let Ok([file, pattern]) = <[OsString; 2]>::try_from(parsed.positional) else {
        return Err(Topic::Cells.fault("cells takes one file and the number of a pattern"));
    };
    let Some(pattern) = pattern.to_str().and_then(number) else {
        return Err(Topic::Cells.fault(format!(
            "'{}' is not the number of a pattern",
            names::file(&pattern)
        )));
    };
    let selection = Selection {
        pattern,
        rows,
        tracks,
    };
    Ok(Command::Cells { file, selection })
}

fn compare(arguments: Vec<OsString>) -> Result<Command, Fault> {
    let topic = Topic::Compare;
    let parsed = ParsedArguments::new(topic, arguments, &[("--numbers", false)])?;
    if parsed.help {
        return Ok(Command::Help(topic));
    }
    let numbers = parsed.value("--numbers").is_some();
    let Ok(files) = <[OsString; 2]>::try_from(parsed.positional) else {
        return Err(topic.fault("compare takes two files, A and B"));
    };
    read_once(topic, &files)?;
    Ok(Command::Compare { files, numbers })
}

fn repack(arguments: Vec<OsString>) -> Result<Command, Fault> {
    let parsed = ParsedArguments::new(Topic::Repack, arguments, &[])?;
    if parsed.help {
        return Ok(Command::Help(Topic::Repack));
    }
    match <[OsString; 2]>::try_from(parsed.positional) {
        Ok([from, to]) => Ok(Command::Repack { from, to }),
        Err(_) => Err(Topic::Repack.fault("repack takes two files, IN and OUT")),
    }
}

fn replace(arguments: Vec<OsString>) -> Result<Command, Fault> {
    let topic = Topic::Replace;
    let parsed = ParsedArguments::new(topic, arguments, &[])?;
    if parsed.help {
        return Ok(Command::Help(topic));
    }
    let Ok([from, sample, frames, to]) = <[OsString; 4]>::try_from(parsed.positional) else {
        return Err(topic.fault("replace takes IN, the number of a sample, FRAMES and OUT"));
    };
    let Some(sample) = sample.to_str().and_then(digits) else {
        return Err(topic.fault(format!(
            "'{}' is not the number of a sample",
            names::file(&sample)
        )));
    };
    let inputs = [from, frames];
    read_once(topic, &inputs)?;
    let [from, frames] = inputs;
    let replacement = Replacement {
        from,
        sample: sample.to_string(),
        frames,
    };
    Ok(Command::Replace { replacement, to })
}

/// The value of an option that is a range: `4`, `4-7` or `4-`.
fn range(parsed: &ParsedArguments, option: &str) -> Result<Option<Range>, Fault> {
    let Some(value) = parsed.value(option) else {
        return Ok(None);
    };
    match value.to_str().and_then(read_range) {
        Some(range) => Ok(Some(range)),
        None => Err(Topic::Cells.fault(format!(
            "'{}' is no range for {option}: write 4, 4-7 or 4-",
            names::file(value)
        ))),
    }
}

fn read_range(text: &str) -> Option<Range> {
    let (first, last) = match text.split_once('-') {
        None => {
            let only = number(text)?;
            (only, Some(only))
        }
        Some((first, "")) => (number(first)?, None),
        Some((first, last)) => (number(first)?, Some(number(last)?)),
    };
    match last {
        Some(last) if last < first => None,
        _ => Some(Range { first, last }),
    }
}

/// A number in decimal digits. Nothing else is accepted.
fn number(text: &str) -> Option<usize> {
    digits(text)?.parse().ok()
}

/// The text if it is a number in decimal digits, of any length.
fn digits(text: &str) -> Option<&str> {
    let is_number = !text.is_empty() && text.bytes().all(|byte| byte.is_ascii_digit());
    is_number.then_some(text)
}
