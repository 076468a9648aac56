//! On every vector, with its family list, the commands print the text of the second program, byte for byte;
//! and `--json` and `check` say the same.

mod common;

use common::json::{objects, Json};
use common::{note, Folder, Ran, QUERY, STREAM, WIDTHS};
use second::families::read_families;
use second::print::{line_and_column, named_glyphs_text, refusal_text};
use second::refusal::{LIST_LIMIT, QUERY_LIMIT, STREAM_LIMIT};
use second::vectors::{all_cases, Case, Program, Second, LEAST_CASES};
use second::{first_part, Part, Refusal, Rooms};
use std::collections::BTreeMap;
use std::sync::{LazyLock, OnceLock};

/// What a routine prints for a case.
type Text = Result<Vec<u8>, Refusal>;

/// A vector with no query of its own is asked for the glyph `a`.
const PLAIN_QUERY: &[u8] = b"glyph=a\n";

#[derive(Clone, Copy, Debug)]
enum Routine {
    Glyphs,
    Respell,
    Find,
}

impl Routine {
    fn name(self) -> &'static str {
        match self {
            Routine::Glyphs => "glyphs",
            Routine::Respell => "respell",
            Routine::Find => "find",
        }
    }

    /// The second program's texts for the cases, made once.
    fn expected(self) -> &'static [Text] {
        static TEXTS: [OnceLock<Vec<Text>>; 3] = [const { OnceLock::new() }; 3];
        TEXTS[self as usize].get_or_init(|| CASES.iter().map(|case| self.text(case)).collect())
    }

    fn text(self, case: &Case) -> Text {
        let rooms = Rooms::default();
        match self {
            Routine::Glyphs => second::read(&case.stream, &case.list, rooms)
                .map(|reading| named_glyphs_text(&case.stream, &case.families, &reading)),
            Routine::Respell => Second.respell(&case.stream, &case.list, rooms),
            Routine::Find => Second.find(&case.stream, &case.list, &case.families, query(case), rooms),
        }
    }

    /// What it prints where the family list is empty.
    fn text_without(self, case: &Case) -> Vec<u8> {
        let plain = Case { families: Vec::new(), ..case.clone() };
        self.text(&plain).unwrap_or_else(refusal_text)
    }

    /// The arguments for the file `widths`, for `find` the file `query`, and, where the case has a family
    /// list, for `find` and `glyphs` the file `families`.
    fn arguments(self, case: &Case) -> Vec<&'static str> {
        let mut arguments = vec![self.name(), "-w", "widths"];
        if matches!(self, Routine::Find) {
            arguments.extend(["-q", "query"]);
        }
        if !matches!(self, Routine::Respell) && !case.families.is_empty() {
            arguments.extend(["-f", "families"]);
        }
        arguments
    }

    /// The line for people about a family list that counts as an empty one.
    fn told(self, case: &Case) -> Option<String> {
        let offset = match read_families(&case.families) {
            _ if case.families.len() > LIST_LIMIT => 0,
            Ok(_) => return None,
            Err(refusal) => refusal.offset,
        };
        let (line, column) = line_and_column(&case.families, offset);
        let is_told = matches!(self, Routine::Glyphs);
        is_told.then(|| format!("mrkvandel: families: line {line}, column {column}: family list"))
    }
}

fn query(case: &Case) -> &[u8] {
    case.query.as_deref().unwrap_or(PLAIN_QUERY)
}

static CASES: LazyLock<Vec<Case>> = LazyLock::new(|| {
    let cases = all_cases().expect("the vectors can be read");
    assert!(cases.len() >= LEAST_CASES, "{} vectors", cases.len());
    cases
});

/// How the line for people begins: the file it is about, the place and the number.
fn said(refusal: Refusal, case: &Case) -> String {
    let files = [
        ("stream", &case.stream[..], STREAM_LIMIT),
        ("widths", &case.list, LIST_LIMIT),
        ("families", &case.families, LIST_LIMIT),
        ("query", query(case), QUERY_LIMIT),
    ];
    let place = match refusal.number {
        1 => files.iter().position(|(_, bytes, limit)| bytes.len() > *limit).expect("one is too long"),
        2 => 1,
        14 => 2,
        12 => 3,
        _ => 0,
    };
    let (name, bytes, _) = files[place];
    let (line, column) = line_and_column(bytes, refusal.offset);
    format!("mrkvandel: {name}: line {line}, column {column}: refused {}: ", refusal.number)
}

/// `told`: what a line before all others begins with, where there is one.
#[track_caller]
fn assert_agrees(case: &Case, ran: &Ran, told: Option<&String>, expected: &Text) {
    let label = &case.name;
    let mut err = ran.err.as_str();
    if let Some(told) = told {
        let (line, rest) = err.split_once('\n').unwrap_or_else(|| panic!("{label}: nothing is told"));
        let is_told = line.starts_with(told) && line.ends_with("; it counts as an empty one");
        assert!(is_told, "{label}: {line}");
        err = rest;
    }
    match *expected {
        Ok(ref text) => {
            assert!(ran.out == *text, "{label}: standard output differs");
            assert_eq!((ran.status, err), (0, ""), "{label}");
        }
        Err(refusal) => {
            assert_eq!((ran.status, &ran.out), (1, &refusal_text(refusal)), "{label}");
            let reason = err.strip_prefix(&said(refusal, case));
            let reason = reason.unwrap_or_else(|| panic!("{label}: {err}"));
            assert!(reason.ends_with('\n') && reason.lines().count() == 1, "{label}: {reason}");
        }
    }
}

fn compare(routine: Routine) {
    let folder = Folder::new(&format!("vectors-{}", routine.name()));
    let (mut accepted, mut by_families, mut told, mut renamed) = (0, 0, 0, 0);
    for (case, expected) in CASES.iter().zip(routine.expected()) {
        folder.put("stream", &case.stream);
        put_lists(&folder, case);
        let arguments = routine.arguments(case);
        let ran = folder.run(&[&arguments[..], &["stream"]].concat());
        let line = routine.told(case);
        accepted += usize::from(ran.status == 0);
        by_families += usize::from(arguments.contains(&"-f"));
        told += usize::from(line.is_some());
        renamed += usize::from(!case.families.is_empty() && ran.out != routine.text_without(case));
        assert_agrees(case, &ran, line.as_ref(), expected);
    }
    let name = routine.name();
    note(&format!(
        "{name}: {} vectors, {accepted} accepted, {by_families} with a family list: {told} are told to be \
         wrong, {renamed} make another text",
        CASES.len()
    ));
    assert!(accepted >= 350 && CASES.len() - accepted >= 400);
    let is_respell = matches!(routine, Routine::Respell);
    assert!(is_respell || (by_families >= 400 && renamed >= 25), "{name}: {by_families}, {renamed}");
}

fn put_lists(folder: &Folder, case: &Case) {
    folder.put("widths", &case.list);
    folder.put("families", &case.families);
    folder.put("query", query(case));
}

#[test]
fn glyphs_prints_the_second_programs_text() {
    compare(Routine::Glyphs);
}

#[test]
fn respell_prints_the_second_programs_text() {
    compare(Routine::Respell);
}

#[test]
fn find_prints_the_second_programs_text() {
    compare(Routine::Find);
}

/// The few vectors with longer streams are run one by one only, for the time they take.
const LONG: usize = 1_000_000;

/// The vectors with one width list, family list and query, by their numbers, which can be run together.
fn groups() -> Vec<Vec<usize>> {
    let mut groups: BTreeMap<[&[u8]; 3], Vec<usize>> = BTreeMap::new();
    for (number, case) in CASES.iter().enumerate().filter(|(_, case)| case.stream.len() < LONG) {
        groups.entry([&case.list, &case.families, query(case)]).or_default().push(number);
    }
    groups.into_values().collect()
}

/// Writes the files of a group; the names of its streams.
fn put_group(folder: &Folder, group: &[usize]) -> Vec<String> {
    put_lists(folder, &CASES[group[0]]);
    let names: Vec<String> = group.iter().map(|number| format!("stream-{number}")).collect();
    names.iter().zip(group).for_each(|(name, number)| folder.put(name, &CASES[*number].stream));
    names
}

fn run_group(folder: &Folder, arguments: &[&str], names: &[String]) -> Ran {
    let names: Vec<&str> = names.iter().map(String::as_str).collect();
    folder.run(&[arguments, &names].concat())
}

/// FORMATS' line of an object.
fn line(object: &Json) -> Vec<u8> {
    let numbers = |keys: &[&str]| {
        let words: Vec<String> = keys.iter().map(|key| object.number(key).to_string()).collect();
        words.join(" ").into_bytes()
    };
    match object.text("type") {
        "glyph" => {
            let gap = if *object.at("gap") == Json::Bool(true) { b" 1 " } else { b" 0 " };
            let first = numbers(&["ordinal", "page", "h", "v", "font", "size"]);
            let last = numbers(&["index", "place", "length"]);
            [b"glyph ", &first[..], gap, &last, b" ", &object.bytes("name"), b"\n"].concat()
        }
        "entry" => {
            let rest = numbers(&["ordinal", "place", "length", "h", "v"]);
            [b"entry ", &object.bytes("letters")[..], b" ", &rest, b"\n"].concat()
        }
        "end" => {
            let first = numbers(&["records", "entries", "pages", "h", "v"]);
            let (glyph, fill) = (colour(object.at("glyph_colour")), colour(object.at("fill_colour")));
            [b"end ", &first[..], b" ", glyph.as_bytes(), b" ", fill.as_bytes(), b"\n"].concat()
        }
        "hit" => [b"hit ", &numbers(&["record"])[..], b"\n"].concat(),
        "found" => [b"found ", &numbers(&["records", "hits"])[..], b"\n"].concat(),
        "spelling" => object.bytes("text"),
        "refused" => [b"refused ", &numbers(&["number", "offset"])[..], b"\n"].concat(),
        other => panic!("unknown type {other}"),
    }
}

fn colour(colour: &Json) -> String {
    let Json::List(parts) = colour.at("parts") else { panic!("{colour:?}") };
    let numbers = parts.iter().map(|part| match part {
        Json::Number(number) => number.to_string(),
        _ => panic!("{part:?} is no number"),
    });
    [vec![colour.text("scheme").to_string()], numbers.collect()].concat().join(" ")
}

/// The text form of the objects of each file.
fn texts(objects: &[Json]) -> BTreeMap<String, Vec<u8>> {
    let mut texts: BTreeMap<String, Vec<u8>> = BTreeMap::new();
    for object in objects {
        texts.entry(object.text("file").to_string()).or_default().extend(line(object));
    }
    texts
}

fn compare_json(routine: Routine) {
    let folder = Folder::new(&format!("json-{}", routine.name()));
    let mut compared = 0;
    for group in groups() {
        let names = put_group(&folder, &group);
        let arguments = routine.arguments(&CASES[group[0]]);
        let ran = run_group(&folder, &[&arguments[..], &["--json"]].concat(), &names);
        let texts = texts(&objects(&ran.out));
        for (name, &number) in names.iter().zip(&group) {
            let expected = routine.expected()[number].clone().unwrap_or_else(refusal_text);
            assert!(texts.get(name) == Some(&expected), "{}: JSON differs", CASES[number].name);
            compared += 1;
        }
        assert_eq!(texts.len(), names.len(), "an object is about another file");
    }
    assert!(compared >= CASES.len() - 10, "{compared} compared");
}

#[test]
fn glyphs_as_json_says_the_same() {
    compare_json(Routine::Glyphs);
}

#[test]
fn respell_as_json_says_the_same() {
    compare_json(Routine::Respell);
}

#[test]
fn find_as_json_says_the_same() {
    compare_json(Routine::Find);
}

/// The first eight columns of the table's row of a case.
fn row(name: &str, case: &Case) -> String {
    match second::read(&case.stream, &case.list, Rooms::default()) {
        Ok(reading) => {
            let (records, entries) = (reading.records.len(), reading.entries.len());
            format!("accepted {} {records} {entries} - - - {name}", reading.pages)
        }
        Err(Refusal { number, offset }) => {
            let bytes = if number == 2 { &case.list } else { &case.stream };
            let line = line_and_column(bytes, offset).0;
            format!("refused - - - {number} {offset} {line} {name}")
        }
    }
}

#[test]
fn check_judges_as_the_second_program() {
    let folder = Folder::new("check-vectors");
    for group in groups() {
        let names = put_group(&folder, &group);
        let ran = run_group(&folder, &["check", "-w", "widths"], &names);
        let rows: Vec<String> = ran.text().lines().skip(1).map(first_columns).collect();
        let row_of = |(name, number): (&String, &usize)| row(name, &CASES[*number]);
        let expected: Vec<String> = names.iter().zip(&group).map(row_of).collect();
        assert_eq!(rows, expected);
        let refused = expected.iter().filter(|row| row.starts_with("refused")).count();
        assert_eq!(ran.status, i32::from(refused > 0));
        let (files, accepted) = (group.len(), group.len() - refused);
        let counted = format!("{accepted} accepted, {refused} refused, 0 unreadable");
        assert_eq!(ran.err, format!("mrkvandel: {files} checked: {counted}\n"));
    }
}

fn first_columns(line: &str) -> String {
    let columns = line.split('\t').next().unwrap_or_default();
    columns.split_whitespace().collect::<Vec<_>>().join(" ")
}

#[test]
fn check_as_json_has_the_length_of_the_spelling() {
    let folder = Folder::new("check-json");
    let (readings, spellings) = (Routine::Glyphs.expected(), Routine::Respell.expected());
    for group in groups() {
        let names = put_group(&folder, &group);
        let ran = run_group(&folder, &["check", "--json", "-w", "widths"], &names);
        let objects = objects(&ran.out);
        assert_eq!(objects.len(), names.len());
        for ((object, name), &number) in objects.iter().zip(&names).zip(&group) {
            assert_eq!(object.text("file"), name);
            let is_accepted = readings[number].is_ok();
            assert_eq!(object.text("type"), if is_accepted { "check" } else { "refused" });
            if is_accepted {
                let length = spellings[number].as_ref().map(Vec::len);
                let expected = length.map_or(Json::Null, |length| Json::Number(length as i64));
                assert_eq!(*object.at("spelling"), expected, "{}", CASES[number].name);
            }
        }
    }
}

/// The program's own family list is sound for the library and for the second program, and both have the same
/// first name for each of its names.
#[test]
fn the_own_family_list_is_sound_for_both_programs() {
    let list = Folder::new("own-families").run(&["letters"]).out;
    assert!(read_families(&list).is_ok());
    let (mut records, mut hits) = ([library::Record::default(); 3], [0; 3]);
    let answer = library::find(STREAM, WIDTHS, &list, QUERY, &mut records, &mut hits);
    assert_eq!((answer.refusal, answer.records, answer.hits, hits[0]), (0, 3, 1, 0));
    let names: Vec<&[u8]> = list.split(|&byte| byte == b'\n').filter_map(|line| line.get(5..)).collect();
    for name in &names {
        let first = library::first_name(name, &list, 0, name.len());
        let Part::Families(due) = first_part(name, &list, 0, name.len()) else {
            panic!("{} is in no family", name.escape_ascii());
        };
        let came = (first.source, first.place, first.len);
        assert_eq!(came, (library::IN_FAMILIES, due.place, due.length), "{}", name.escape_ascii());
    }
    note(&format!("the own list: {} bytes, {} names", list.len(), names.len()));
    assert!(names.len() >= 400);
}
