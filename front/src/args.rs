//! The command line.

use crate::files::{printable, Source};
use crate::shorthand::{self, Fault, Piece};
use std::ffi::{OsStr, OsString};
use std::os::unix::ffi::{OsStrExt, OsStringExt};

/// What is to be done.
#[derive(Debug, PartialEq, Eq)]
pub enum Action {
    Help(Page),
    Version,
    /// prints the program's own family list
    Letters,
    Run(Job),
}

/// A page of the help.
#[derive(Clone, Copy, Debug, PartialEq, Eq)]
pub enum Page {
    Whole,
    Of(Command),
    Letters,
}

/// What is done with streams.
#[derive(Clone, Copy, Debug, PartialEq, Eq)]
pub enum Command {
    Glyphs,
    Respell,
    Find,
    Check,
}

#[derive(Debug, PartialEq, Eq)]
pub struct Job {
    pub command: Command,
    pub widths: Source,
    /// of `find` and `glyphs`
    pub families: Option<Source>,
    /// of `find` alone
    pub query: Option<Query>,
    pub json: bool,
    pub streams: Vec<Source>,
}

#[derive(Debug, PartialEq, Eq)]
pub enum Query {
    File(Source),
    /// the parts of the text of `-e`
    Text(Vec<Piece>),
}

/// What is wrong with a command line, for people; bytes, as it may name an argument.
pub type Wrong = Vec<u8>;

#[derive(Clone, Copy)]
enum Choice {
    Widths,
    Families,
    Query,
    Text,
    Json,
    Help,
    Version,
}

/// Reads the arguments, the program's name aside.
pub fn parse(arguments: Vec<OsString>) -> Result<Action, Wrong> {
    let mut rest = arguments.into_iter();
    let first = rest.next().ok_or("a command is missing: glyphs, respell, find, check or letters")?;
    let command = match first.as_bytes() {
        b"glyphs" => Command::Glyphs,
        b"respell" => Command::Respell,
        b"find" => Command::Find,
        b"check" => Command::Check,
        b"letters" => return letters(rest),
        b"-h" | b"--help" => return Ok(Action::Help(Page::Whole)),
        b"-V" | b"--version" => return Ok(Action::Version),
        _ => return Err(about(&first, "is no command; there are glyphs, respell, find, check and letters")),
    };
    let mut given = Given::default();
    let mut is_operand = false;
    while let Some(argument) = rest.next() {
        match argument.as_bytes() {
            b"--" if !is_operand => is_operand = true,
            [b'-', _, ..] if !is_operand => {
                let (choice, value) = option(&argument)?;
                match choice {
                    Choice::Help => return Ok(Action::Help(Page::Of(command))),
                    Choice::Version => return Ok(Action::Version),
                    _ => given.take(choice, &argument, value, &mut rest)?,
                }
            }
            _ => given.streams.push(Source::of(argument)),
        }
    }
    given.job(command).map(Action::Run)
}

/// `letters` has neither options of its own nor files.
fn letters(mut rest: impl Iterator<Item = OsString>) -> Result<Action, Wrong> {
    let Some(argument) = rest.next() else { return Ok(Action::Letters) };
    match argument.as_bytes() {
        b"-h" | b"--help" => Ok(Action::Help(Page::Letters)),
        b"-V" | b"--version" => Ok(Action::Version),
        _ => Err(about(&argument, "is too much: letters takes no further arguments")),
    }
}

fn about(argument: &OsStr, message: &str) -> Wrong {
    [&printable(argument), b" ".as_slice(), message.as_bytes()].concat()
}

/// The option that an argument names, and the value that stands in the same argument.
fn option(argument: &OsStr) -> Result<(Choice, Option<OsString>), Wrong> {
    let bytes = argument.as_bytes();
    let (name, value) = match bytes {
        [b'-', b'-', ..] => match bytes.iter().position(|&byte| byte == b'=') {
            Some(place) => (&bytes[..place], Some(&bytes[place + 1..])),
            None => (bytes, None),
        },
        _ => (&bytes[..2], Some(&bytes[2..]).filter(|value| !value.is_empty())),
    };
    let choice = match name {
        b"-w" | b"--widths" => Choice::Widths,
        b"-f" | b"--families" => Choice::Families,
        b"-q" | b"--query" => Choice::Query,
        b"-e" | b"--text" => Choice::Text,
        b"--json" => Choice::Json,
        b"-h" | b"--help" => Choice::Help,
        b"-V" | b"--version" => Choice::Version,
        _ => return Err(about(argument, "is no option of this program")),
    };
    let is_switch = matches!(choice, Choice::Json | Choice::Help | Choice::Version);
    if value.is_some() && is_switch {
        return Err(about(OsStr::from_bytes(name), "takes no value"));
    }
    Ok((choice, value.map(|value| OsString::from_vec(value.to_vec()))))
}

/// What was given so far.
#[derive(Default)]
struct Given {
    widths: Option<Source>,
    families: Option<Source>,
    query: Option<Source>,
    text: Option<OsString>,
    json: bool,
    streams: Vec<Source>,
}

impl Given {
    /// Takes an option with its value, which may be the next argument.
    fn take(
        &mut self,
        choice: Choice,
        argument: &OsStr,
        value: Option<OsString>,
        rest: &mut impl Iterator<Item = OsString>,
    ) -> Result<(), Wrong> {
        if let Choice::Json = choice {
            self.json = true;
            return Ok(());
        }
        let value = value.or_else(|| rest.next()).ok_or_else(|| about(argument, "needs a value"))?;
        let is_second = match choice {
            Choice::Widths => self.widths.replace(Source::of(value)).is_some(),
            Choice::Families => self.families.replace(Source::of(value)).is_some(),
            Choice::Query => self.query.replace(Source::of(value)).is_some(),
            _ => self.text.replace(value).is_some(),
        };
        match is_second {
            true => Err(about(argument, "is given twice")),
            false => Ok(()),
        }
    }

    fn job(self, command: Command) -> Result<Job, Wrong> {
        let Given { widths, families, query, text, json, streams } = self;
        let query = query_of(command, query, text)?;
        if families.is_some() && !matches!(command, Command::Find | Command::Glyphs) {
            return Err(Wrong::from("-f is an option of find and glyphs alone"));
        }
        let widths = widths.ok_or("the width list is missing: -w FILE")?;
        if streams.is_empty() {
            return Err(Wrong::from("a stream is missing: name a file, or - for standard input"));
        }
        let mut sources: Vec<&Source> = streams.iter().chain([&widths]).chain(&families).collect();
        if let Some(Query::File(source)) = &query {
            sources.push(source);
        }
        if sources.iter().filter(|source| ***source == Source::Standard).count() > 1 {
            return Err(Wrong::from("standard input (-) can be only one of the files"));
        }
        Ok(Job { command, widths, families, query, json, streams })
    }
}

/// `find` has a query, in one of two forms; the other commands have none.
fn query_of(command: Command, query: Option<Source>, text: Option<OsString>) -> Result<Option<Query>, Wrong> {
    match (command, query, text) {
        (Command::Find, Some(source), None) => Ok(Some(Query::File(source))),
        (Command::Find, None, Some(text)) => {
            shorthand::pieces(text.as_bytes()).map(|pieces| Some(Query::Text(pieces))).map_err(wrong_text)
        }
        (Command::Find, None, None) => Err(Wrong::from("the query is missing: -q FILE or -e TEXT")),
        (Command::Find, Some(_), Some(_)) => Err(Wrong::from("give -q or -e, not both")),
        (_, None, None) => Ok(None),
        _ => Err(Wrong::from("-q and -e are options of find alone")),
    }
}

/// What is wrong with the text of `-e`.
pub fn wrong_text(Fault { place, message }: Fault) -> Wrong {
    format!("the text of -e: byte {}: {message}", place + 1).into_bytes()
}

#[cfg(test)]
mod tests {
    use super::*;

    fn parsed(arguments: &[&str]) -> Result<Action, String> {
        let arguments = arguments.iter().map(OsString::from).collect();
        parse(arguments).map_err(|wrong| String::from_utf8_lossy(&wrong).into_owned())
    }

    fn file(name: &str) -> Source {
        Source::File(OsString::from(name))
    }

    #[track_caller]
    fn assert_job(arguments: &[&str], widths: Source, query: Option<Query>, streams: &[Source]) {
        let Ok(Action::Run(job)) = parsed(arguments) else { panic!("{arguments:?}") };
        assert_eq!((job.widths, job.query, &job.streams[..]), (widths, query, streams));
    }

    #[track_caller]
    fn assert_wrong(arguments: &[&str], part: &str) {
        let wrong = parsed(arguments).expect_err("this is a usage error");
        assert!(wrong.contains(part), "{wrong}");
    }

    #[test]
    fn every_form_of_an_option() {
        let query = || Some(Query::File(file("q")));
        assert_job(&["find", "-w", "w", "-q", "q", "s"], file("w"), query(), &[file("s")]);
        assert_job(&["find", "-ww", "-qq", "s"], file("w"), query(), &[file("s")]);
        assert_job(&["find", "--widths", "w", "--query", "q", "s"], file("w"), query(), &[file("s")]);
        assert_job(&["find", "--widths=w", "--query=q", "s"], file("w"), query(), &[file("s")]);
        let text = || Some(Query::Text(vec![Piece::Glyph(b"-".to_vec())]));
        assert_job(&["find", "-e", "-", "-w", "w", "s"], file("w"), text(), &[file("s")]);
        assert_job(&["find", "--text=-", "-w", "w", "s"], file("w"), text(), &[file("s")]);
        assert_job(&["find", "--text", "-", "-w", "w", "s"], file("w"), text(), &[file("s")]);
        let empty = Some(Query::Text(Vec::new()));
        assert_job(&["find", "--text=", "-w", "w", "s"], file("w"), empty, &[file("s")]);
    }

    #[test]
    fn a_family_list_for_find_and_glyphs() {
        let families = |arguments: &[&str]| match parsed(arguments) {
            Ok(Action::Run(job)) => job.families,
            other => panic!("{other:?}"),
        };
        let forms = [&["-f", "l"][..], &["-fl"], &["--families", "l"], &["--families=l"]];
        for form in forms {
            let glyphs = [&["glyphs", "-w", "w"], form, &["s"]].concat();
            let find = [&["find", "-w", "w", "-q", "q"], form, &["s"]].concat();
            assert_eq!((families(&glyphs), families(&find)), (Some(file("l")), Some(file("l"))));
        }
        assert_eq!(families(&["glyphs", "-w", "w", "s"]), None);
        assert_eq!(families(&["glyphs", "-w", "w", "-f", "-", "s"]), Some(Source::Standard));
        for command in ["respell", "check"] {
            assert_wrong(&[command, "-w", "w", "-f", "l", "s"], "-f is an option of find and glyphs alone");
        }
        assert_wrong(&["glyphs", "-w", "w", "-f", "l", "-f", "l", "s"], "-f is given twice");
    }

    #[test]
    fn letters_takes_nothing() {
        assert_eq!(parsed(&["letters"]), Ok(Action::Letters));
        assert_eq!(parsed(&["letters", "--help"]), Ok(Action::Help(Page::Letters)));
        assert_eq!(parsed(&["letters", "-V"]), Ok(Action::Version));
        assert_wrong(&["letters", "-w", "w"], "-w is too much");
        assert_wrong(&["letters", "s"], "s is too much");
    }

    #[test]
    fn streams_and_options_in_any_order() {
        let streams = [file("s"), file("-w"), file("--")];
        assert_job(&["glyphs", "s", "-w", "w", "--", "-w", "--"], file("w"), None, &streams);
        assert_job(&["check", "-w", "w", "--", "-"], file("w"), None, &[Source::Standard]);
        assert_job(&["respell", "s", "-w-"], Source::Standard, None, &[file("s")]);
    }

    #[test]
    fn json_is_a_switch() {
        let json = |arguments: &[&str]| match parsed(arguments) {
            Ok(Action::Run(job)) => job.json,
            other => panic!("{other:?}"),
        };
        assert!(json(&["glyphs", "--json", "-w", "w", "s"]));
        assert!(!json(&["glyphs", "-w", "w", "s"]));
        assert!(!json(&["glyphs", "-w", "w", "--", "--json"]));
    }

    #[test]
    fn help_and_version() {
        for option in ["-h", "--help"] {
            assert_eq!(parsed(&[option]), Ok(Action::Help(Page::Whole)));
            assert_eq!(parsed(&["find", "s", option]), Ok(Action::Help(Page::Of(Command::Find))));
        }
        for option in ["-V", "--version"] {
            assert_eq!(parsed(&[option]), Ok(Action::Version));
            assert_eq!(parsed(&["check", option]), Ok(Action::Version));
        }
    }

    #[test]
    fn usage_errors() {
        assert_wrong(&[], "a command is missing");
        assert_wrong(&["read"], "read is no command");
        assert_wrong(&["--json", "glyphs"], "--json is no command");
        assert_wrong(&["glyphs", "-w", "w"], "a stream is missing");
        assert_wrong(&["glyphs", "s"], "the width list is missing");
        assert_wrong(&["glyphs", "s", "-w"], "-w needs a value");
        assert_wrong(&["glyphs", "s", "--widths"], "--widths needs a value");
        assert_wrong(&["glyphs", "-w", "w", "-w", "w", "s"], "-w is given twice");
        assert_wrong(&["glyphs", "-w", "w", "-x", "s"], "-x is no option");
        assert_wrong(&["glyphs", "-w", "w", "--wide=w", "s"], "--wide=w is no option");
        assert_wrong(&["glyphs", "-w", "w", "--json=yes", "s"], "--json takes no value");
        assert_wrong(&["glyphs", "-help"], "-h takes no value");
        assert_wrong(&["find", "-w", "w", "s"], "the query is missing");
        assert_wrong(&["find", "-w", "w", "-q", "q", "-e", "a", "s"], "not both");
        assert_wrong(&["check", "-w", "w", "-q", "q", "s"], "options of find alone");
        assert_wrong(&["check", "-w", "w", "-e", "a", "s"], "options of find alone");
        assert_wrong(&["find", "-w", "w", "-e", "ab\\q", "s"], "the text of -e: byte 3: unknown escape");
    }

    #[test]
    fn standard_input_is_taken_once() {
        assert_wrong(&["glyphs", "-w", "-", "-"], "only one of the files");
        assert_wrong(&["glyphs", "-w", "w", "-", "-"], "only one of the files");
        assert_wrong(&["find", "-w", "w", "-q", "-", "-"], "only one of the files");
        assert_wrong(&["find", "-w", "-", "-q", "-", "s"], "only one of the files");
        assert_wrong(&["glyphs", "-w", "w", "-f", "-", "-"], "only one of the files");
        assert_wrong(&["find", "-w", "-", "-f", "-", "-q", "q", "s"], "only one of the files");
    }
}
