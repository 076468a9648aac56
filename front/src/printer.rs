//! What a job prints and says, in the form that was asked for.

use crate::answers::Answer;
use crate::args::{Command, Job, Query};
use crate::check::{self, Progress, Totals};
use crate::files::Source;
use crate::json;
use crate::output::{Output, REFUSED};
use crate::reasons::{About, Explained};
use crate::text;

/// How answers are printed.
#[derive(Clone, Copy, PartialEq, Eq)]
enum Form {
    /// FORMATS
    Text,
    /// an object a line
    Json,
    /// the table of `check`
    Table,
}

pub struct Printer<'a> {
    job: &'a Job,
    form: Form,
    output: Output,
    totals: Totals,
    progress: Progress,
}

impl<'a> Printer<'a> {
    pub fn new(job: &'a Job) -> Printer<'a> {
        let is_check = job.command == Command::Check;
        let form = match job.json {
            true => Form::Json,
            false if is_check => Form::Table,
            false => Form::Text,
        };
        let (output, totals, progress) = (Output::new(), Totals::default(), Progress::new(is_check));
        Printer { job, form, output, totals, progress }
    }

    pub fn status(&self) -> u8 {
        self.output.status()
    }

    /// Before the first stream.
    pub fn begin(&mut self) {
        if self.form == Form::Table {
            self.output.print(check::header);
        }
    }

    /// Before a stream is read.
    pub fn start(&mut self, number: usize, source: &Source) {
        let streams = self.job.streams.len();
        self.progress.show(&mut self.output, number, streams, source);
        if self.form == Form::Text && streams > 1 {
            self.output.print(|out| text::heading(out, source.name()));
        }
    }

    pub fn answer(&mut self, source: &Source, answer: &Answer) {
        self.progress.erase(&mut self.output);
        self.totals.add(Some(answer));
        let (form, name) = (self.form, source.name());
        self.output.print(|out| match form {
            Form::Text => text::answer(out, answer),
            Form::Json => json::answer(out, name, answer),
            Form::Table => check::row(out, name, answer),
        });
        if let Answer::Refused(explained) = answer {
            self.refused(source, explained);
        }
    }

    /// The line for people; a row of the table says all of it already, the column aside.
    fn refused(&mut self, source: &Source, explained: &Explained) {
        self.output.raise(REFUSED);
        if self.form == Form::Table && self.output.is_open() {
            return;
        }
        let Explained { number, about, line, column, reason, .. } = *explained;
        let (file, within) = match (about, &self.job.query) {
            (About::Stream, _) => (source.shown(), ""),
            (About::Widths, _) => (self.job.widths.shown(), ""),
            (About::Families, _) => (self.families(), ""),
            (About::Query, Some(Query::File(query))) => (query.shown(), ""),
            (About::Query, _) => (b"the text of -e".to_vec(), " of its query"),
        };
        let message = format!("line {line}, column {column}{within}: refused {number}: {reason}");
        self.output.say(&file, &message);
    }

    /// The name of the family list, for a line on standard error.
    fn families(&self) -> Vec<u8> {
        self.job.families.as_ref().map_or_else(|| b"mrkvandel letters".to_vec(), Source::shown)
    }

    /// Says that letters are looked for by the program's own family list.
    pub fn own_list(&mut self) {
        let message = "letters are looked for under all their names, by the list of `mrkvandel letters`";
        self.output.say(b"the text of -e", message);
    }

    /// Says that a family list is wrong, where it is not refused but counts as an empty one.
    pub fn no_list(&mut self, explained: &Explained) {
        let Explained { line, column, reason, .. } = *explained;
        let message = format!("line {line}, column {column}: {reason}; it counts as an empty one");
        self.output.say(&self.families(), &message);
    }

    /// A stream that cannot be read.
    pub fn unreadable(&mut self, source: &Source, message: &str) {
        self.totals.add(None);
        self.fail(source, About::Stream, message);
    }

    /// Something that is wrong with a file, its content aside.
    pub fn fail(&mut self, source: &Source, about: About, message: &str) {
        self.progress.erase(&mut self.output);
        let (form, name) = (self.form, source.name());
        self.output.print(|out| match form {
            Form::Text => Ok(()),
            Form::Json => json::error(out, name, about, message),
            Form::Table if about == About::Stream => check::unreadable(out, name, message),
            Form::Table => Ok(()),
        });
        self.output.fail(&source.shown(), message);
    }

    /// Behind the last stream: the exit status.
    pub fn end(mut self) -> u8 {
        if self.job.command == Command::Check {
            self.totals.say(&mut self.output);
        }
        self.output.status()
    }
}
