//! The commands, run over their files.

use crate::answers::Rows;
use crate::args::{self, Action, Job, Query, Wrong};
use crate::families;
use crate::files::{self, Source};
use crate::help;
use crate::letters;
use crate::output::{Output, FAILED};
use crate::printer::Printer;
use crate::reasons::{About, Explained, Inputs};
use crate::shorthand;
use library::{FAMILIES_LIMIT, LIST_LIMIT, QUERY_LIMIT, STREAM_LIMIT};
use std::ffi::OsString;
use std::io::{self, Write};

/// Runs the program on its arguments; the exit status.
pub fn run(arguments: Vec<OsString>) -> u8 {
    match args::parse(arguments) {
        Ok(Action::Help(page)) => print(help::text(page).as_bytes()),
        Ok(Action::Version) => print(help::VERSION.as_bytes()),
        Ok(Action::Letters) => print(&letters::family_list()),
        Ok(Action::Run(job)) => run_job(&job),
        Err(wrong) => usage(&wrong),
    }
}

fn print(text: &[u8]) -> u8 {
    let mut output = Output::new();
    output.print(|out| out.write_all(text));
    output.status()
}

/// Says what is wrong with a command line.
fn usage(wrong: &Wrong) -> u8 {
    let line = [b"mrkvandel: ", &wrong[..], b"\nmrkvandel --help says how it is used\n"].concat();
    // where standard error cannot be written, the status still tells
    let _ = io::stderr().write_all(&line);
    FAILED
}

/// Answers for each stream in turn; rows and buffers serve one after another.
fn run_job(job: &Job) -> u8 {
    let mut printer = Printer::new(job);
    let lists = match read_lists(job, &mut printer) {
        Ok(lists) => lists,
        Err(Stop::Unread) => return printer.status(),
        Err(Stop::Usage(wrong)) => return usage(&wrong),
    };
    let Lists { widths, families, query } = &lists;
    let (mut rows, mut stream) = (Rows::default(), Vec::new());
    printer.begin();
    for (place, source) in job.streams.iter().enumerate() {
        printer.start(place + 1, source);
        if let Err(error) = files::read(source, STREAM_LIMIT, &mut stream) {
            printer.unreadable(source, &error.to_string());
            continue;
        }
        let inputs = Inputs { stream: &stream, widths, families, query };
        match rows.answer(job.command, inputs) {
            Ok(answer) => printer.answer(source, &answer),
            Err(_) => printer.fail(source, About::Stream, "there is not enough memory for its answer"),
        }
    }
    printer.end()
}

/// The inputs that serve for all streams; one that the command has not is empty.
struct Lists {
    widths: Vec<u8>,
    families: Vec<u8>,
    query: Vec<u8>,
}

/// Why a job ends before its first stream.
enum Stop {
    /// a file cannot be read, as was said
    Unread,
    /// the text of `-e` does not go with the family list
    Usage(Wrong),
}

fn read_lists(job: &Job, printer: &mut Printer) -> Result<Lists, Stop> {
    let widths = read_list(&job.widths, About::Widths, LIST_LIMIT, printer)?;
    let mut families = Vec::new();
    if let Some(source) = &job.families {
        families = read_list(source, About::Families, FAMILIES_LIMIT, printer)?;
    }
    let mut query = Vec::new();
    match &job.query {
        None => tell_wrong(&families, printer),
        Some(Query::File(source)) => query = read_list(source, About::Query, QUERY_LIMIT, printer)?,
        Some(Query::Text(pieces)) => {
            if job.families.is_none() && shorthand::has_letter(pieces) {
                families = letters::family_list();
                printer.own_list();
            }
            let name_of = |letter| families::name_of(letter, &families);
            let made = shorthand::query(pieces, name_of).map_err(args::wrong_text);
            query = made.map_err(Stop::Usage)?;
        }
    }
    Ok(Lists { widths, families, query })
}

fn read_list(source: &Source, about: About, limit: usize, printer: &mut Printer) -> Result<Vec<u8>, Stop> {
    let mut bytes = Vec::new();
    files::read(source, limit, &mut bytes).map_err(|error| {
        printer.fail(source, about, &error.to_string());
        Stop::Unread
    })?;
    Ok(bytes)
}

/// Without a query a wrong family list is not refused, but it is told.
fn tell_wrong(families: &[u8], printer: &mut Printer) {
    if let Some(refusal) = families::refusal(families) {
        let inputs = Inputs { stream: b"", widths: b"", families, query: b"" };
        printer.no_list(&Explained::of(refusal, inputs));
    }
}
