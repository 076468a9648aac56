//! The second program: `glyphs`, `respell` and `find`, printing the text of FORMATS.

use second::print::{found_text, line_and_column, named_glyphs_text, refusal_text};
use second::refusal::{
    reason, FAMILY_LIST, LIST_LIMIT, QUERY, QUERY_LIMIT, STREAM_LIMIT, TOO_LONG, WIDTH_LIST,
};
use second::{find, read, respell, Refusal, Rooms};
use std::io::Write;
use std::process::ExitCode;

const USAGE: &str = "usage: second [--records N] [--entries N] [--hits N] [--spelling N] \
    glyphs [-f FAMILIES] STREAM WIDTHS | respell STREAM WIDTHS | find [-f FAMILIES] STREAM WIDTHS QUERY";

/// A file named on the command line.
#[derive(Default)]
struct Input {
    path: String,
    bytes: Vec<u8>,
}

/// The files of a call; the family list and the query are empty where none is given.
struct Inputs {
    stream: Input,
    list: Input,
    families: Input,
    query: Input,
}

/// The options of a call, and the words that are left.
#[derive(Default)]
struct Call {
    rooms: Rooms,
    families: Option<String>,
    words: Vec<String>,
}

fn main() -> ExitCode {
    match run(std::env::args().skip(1).collect()) {
        Ok(accepted) => ExitCode::from(u8::from(!accepted)),
        Err(message) => {
            eprintln!("second: {message}");
            ExitCode::from(2)
        }
    }
}

/// Whether the input was accepted; `Err` for bad usage or an unreadable file.
fn run(arguments: Vec<String>) -> Result<bool, String> {
    let call = take_options(arguments)?;
    let (command, paths) = call.words.split_first().ok_or(USAGE)?;
    let (takes_families, expected) = match command.as_str() {
        "glyphs" => (true, 2),
        "respell" => (false, 2),
        "find" => (true, 3),
        _ => return Err(USAGE.to_string()),
    };
    if paths.len() != expected || (call.families.is_some() && !takes_families) {
        return Err(USAGE.to_string());
    }
    let inputs = open_all(paths, call.families.as_ref())?;
    match answer(command, &inputs, call.rooms) {
        Ok(text) => print(&text).map(|()| true),
        Err(refusal) => {
            print(&refusal_text(refusal))?;
            eprintln!("{}", line_for_people(refusal, &inputs));
            Ok(false)
        }
    }
}

/// Takes the options out of the arguments, wherever they stand; `-f` may come once.
fn take_options(arguments: Vec<String>) -> Result<Call, String> {
    let mut call = Call::default();
    let mut rest = arguments.into_iter();
    while let Some(argument) = rest.next() {
        let room = match argument.as_str() {
            "--records" => &mut call.rooms.records,
            "--entries" => &mut call.rooms.entries,
            "--hits" => &mut call.rooms.hits,
            "--spelling" => &mut call.rooms.spelling,
            "-f" if call.families.is_none() => {
                call.families = Some(rest.next().ok_or(USAGE)?);
                continue;
            }
            "-f" => return Err(USAGE.to_string()),
            _ => {
                call.words.push(argument);
                continue;
            }
        };
        *room = rest.next().and_then(|number| number.parse().ok()).ok_or(USAGE)?;
    }
    Ok(call)
}

fn open(path: &String) -> Result<Input, String> {
    let bytes = std::fs::read(path).map_err(|error| format!("{path}: {error}"))?;
    Ok(Input { path: path.clone(), bytes })
}

fn open_all(paths: &[String], families: Option<&String>) -> Result<Inputs, String> {
    let open_given = |path: Option<&String>| path.map_or(Ok(Input::default()), open);
    Ok(Inputs {
        stream: open(&paths[0])?,
        list: open(&paths[1])?,
        families: open_given(families)?,
        query: open_given(paths.get(2))?,
    })
}

fn answer(command: &str, inputs: &Inputs, rooms: Rooms) -> Result<Vec<u8>, Refusal> {
    let Inputs { stream, list, families, query } = inputs;
    let (stream, list, families) = (&stream.bytes, &list.bytes, &families.bytes);
    match command {
        "glyphs" => read(stream, list, rooms).map(|reading| named_glyphs_text(stream, families, &reading)),
        "respell" => respell(stream, list, rooms),
        _ => find(stream, list, families, &query.bytes, rooms).map(|found| found_text(&found)),
    }
}

fn print(text: &[u8]) -> Result<(), String> {
    let mut out = std::io::stdout().lock();
    out.write_all(text).and_then(|()| out.flush()).map_err(|error| error.to_string())
}

/// The reason in words, the file it is about, the line and column.
fn line_for_people(refusal: Refusal, inputs: &Inputs) -> String {
    let input = match refusal.number {
        TOO_LONG => too_long_input(inputs),
        WIDTH_LIST => &inputs.list,
        FAMILY_LIST => &inputs.families,
        QUERY => &inputs.query,
        _ => &inputs.stream,
    };
    let (line, column) = line_and_column(&input.bytes, refusal.offset);
    format!("{}: line {line}, column {column}: {}", input.path, reason(refusal.number))
}

/// The first input that is too long. `glyphs` refuses no family list, so only its others are looked at:
/// where it gives 1, one of them is too long, and they stand before the family list.
fn too_long_input(inputs: &Inputs) -> &Input {
    let Inputs { stream, list, families, query } = inputs;
    let limits = [(stream, STREAM_LIMIT), (list, LIST_LIMIT), (families, LIST_LIMIT), (query, QUERY_LIMIT)];
    let is_too_long = |(input, limit): &(&Input, usize)| input.bytes.len() > *limit;
    limits.into_iter().find(is_too_long).map_or(stream, |(input, _)| input)
}
