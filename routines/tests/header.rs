//! `include/mrkvandel.h` and this package's structs agree with each other and with the Rattle source,
//! and the library can be called from C. It needs a C and a C++ compiler, `cc` and `c++`.

use routines::{Colour, Entry, FindResult, FirstNameResult, JudgeResult, ReadResult, Record, RespellResult};
use second::generate::first::{first_call, FirstCall};
use second::generate::{case, search::search, Case};
use second::print::{found_text, glyphs_text, refusal_text};
use second::refusal::{self, Refusal, Rooms};
use second::{first_part, Part};
use std::any::type_name_of_val;
use std::ffi::{OsStr, OsString};
use std::mem::{offset_of, size_of, size_of_val};
use std::path::{Path, PathBuf};
use std::process::{Command, Output};

/// A struct of the library: its name in Rattle and Rust, its name in C, its size and its fields.
struct Layout {
    name: &'static str,
    c_name: &'static str,
    size: usize,
    fields: Vec<Field>,
}

struct Field {
    name: &'static str,
    offset: usize,
    size: usize,
    /// its type's name, without the path
    kind: String,
}

fn last_part(path: &str) -> String {
    path.rsplit("::").next().unwrap_or(path).to_string()
}

macro_rules! layout {
    ($name:ident as $c_name:ident: $($field:ident)*) => {{
        let value = $name::default();
        let fields = vec![$(Field {
            name: stringify!($field),
            offset: offset_of!($name, $field),
            size: size_of_val(&value.$field),
            kind: last_part(type_name_of_val(&value.$field)),
        }),*];
        Layout { name: stringify!($name), c_name: stringify!($c_name), size: size_of::<$name>(), fields }
    }};
}

/// The structs, each with its fields in their order.
fn layouts() -> [Layout; 8] {
    [
        layout!(Record as mrkvandel_record: ordinal page h v font size place len index gap),
        layout!(Entry as mrkvandel_entry: command letter scheme ordinal place len h v),
        layout!(Colour as mrkvandel_colour: scheme parts),
        layout!(ReadResult as mrkvandel_read_result: offset records entries refusal pages h v glyph fill),
        layout!(FindResult as mrkvandel_find_result: offset records hits refusal),
        layout!(RespellResult as mrkvandel_respell_result: offset len refusal),
        layout!(JudgeResult as mrkvandel_judge_result: offset records entries spelling refusal pages),
        layout!(FirstNameResult as mrkvandel_first_name_result: place len source),
    ]
}

const VALUES: [(&str, usize); 24] = [
    ("ACCEPTED", 0),
    ("TOO_LONG", refusal::TOO_LONG as usize),
    ("WIDTH_LIST", refusal::WIDTH_LIST as usize),
    ("UNKNOWN", refusal::UNKNOWN as usize),
    ("MALFORMED", refusal::MALFORMED as usize),
    ("SURPLUS", refusal::SURPLUS as usize),
    ("OUTSIDE_LIMIT", refusal::OUTSIDE_LIMIT as usize),
    ("OUT_OF_ORDER", refusal::OUT_OF_ORDER as usize),
    ("NO_FONT", refusal::NO_FONT as usize),
    ("NO_WIDTH", refusal::NO_WIDTH as usize),
    ("OUT_OF_REACH", refusal::OUT_OF_REACH as usize),
    ("NO_STOP", refusal::NO_STOP as usize),
    ("QUERY", refusal::QUERY as usize),
    ("NO_ROOM", refusal::NO_ROOM as usize),
    ("FAMILY_LIST", refusal::FAMILY_LIST as usize),
    ("BARRED_BYTE", refusal::BARRED_BYTE as usize),
    ("STREAM_LIMIT", refusal::STREAM_LIMIT),
    ("LIST_LIMIT", refusal::LIST_LIMIT),
    ("FAMILIES_LIMIT", refusal::LIST_LIMIT),
    ("QUERY_LIMIT", refusal::QUERY_LIMIT),
    ("SPELLING_LIMIT", refusal::SPELLING_LIMIT),
    ("NO_NAME", library::NO_NAME as usize),
    ("IN_STREAM", library::IN_STREAM as usize),
    ("IN_FAMILIES", library::IN_FAMILIES as usize),
];

fn in_repository(path: &str) -> PathBuf {
    Path::new(env!("CARGO_MANIFEST_DIR")).join("..").join(path)
}

fn text_of(path: &str) -> String {
    std::fs::read_to_string(in_repository(path)).unwrap_or_else(|error| panic!("{path}: {error}"))
}

/// The Rattle source of the exported functions, with their answers.
fn exporting_source() -> String {
    ["answers", "read", "find", "respell", "judge", "first_name"]
        .map(|name| text_of(&format!("crates/capi_{name}/src/lib.rt")))
        .concat()
}

/// A compiler, and what makes it take a file as C11 or C++11.
const C: [&str; 4] = ["cc", "-std=c11", "-x", "c"];
const CPLUSPLUS: [&str; 4] = ["c++", "-std=c++11", "-x", "c++"];

/// Compiles a file of this folder and links it with the library; every warning is an error.
fn compile(compiler: [&str; 4], file: &str, program: &Path) {
    let output = Command::new(compiler[0])
        .args(&compiler[1..])
        .args(["-Wall", "-Wpedantic", "-Werror", "-I"])
        .arg(in_repository("include"))
        .arg(in_repository("routines/tests").join(file))
        .args(["-x", "none"])
        .arg(in_repository("target/lib/libmrkvandel.a"))
        .arg("-o")
        .arg(program)
        .output();
    let output = output.unwrap_or_else(|error| panic!("{}: {error}", compiler[0]));
    let message = String::from_utf8_lossy(&output.stderr);
    assert!(output.status.success(), "{} {file}:\n{message}", compiler[0]);
}

/// A file in the folder that cargo keeps for tests.
fn temporary(name: &str) -> PathBuf {
    Path::new(env!("CARGO_TARGET_TMPDIR")).join(name)
}

fn output_of<T: AsRef<OsStr>>(program: &Path, words: &[T]) -> Output {
    Command::new(program)
        .args(words)
        .output()
        .unwrap_or_else(|error| panic!("{}: {error}", program.display()))
}

/// What `layout.c` must print.
fn layout_text() -> String {
    let mut text = String::new();
    for Layout { c_name, size, fields, .. } in layouts() {
        text += &format!("{c_name} {size}\n");
        for Field { name, offset, size, kind } in fields {
            let kind = match kind.as_str() {
                "i32" => "signed",
                "u32" | "usize" => "unsigned",
                "[u32; 4]" => "parts",
                "Colour" => "colour",
                other => panic!("no field has the type {other}"),
            };
            text += &format!("{c_name} {name} {offset} {size} {kind}\n");
        }
    }
    for (name, value) in VALUES {
        text += &format!("MRKVANDEL_{name} {value}\n");
    }
    text
}

/// Size, and each field's offset, size and sign, as the compilers have them; the numbers too.
#[test]
fn the_header_has_the_same_layout() {
    for (compiler, name) in [(C, "layout-c"), (CPLUSPLUS, "layout-cplusplus")] {
        let program = temporary(name);
        compile(compiler, "layout.c", &program);
        let output = output_of::<&str>(&program, &[]);
        assert_eq!(String::from_utf8_lossy(&output.stdout), layout_text(), "{name}");
    }
}

/// The lines of a Rattle struct that is laid out as C does, without spaces around them.
fn rattle_struct<'a>(source: &'a str, name: &str) -> Vec<&'a str> {
    let head = format!("\npub struct {name} {{\n");
    let (above, behind) = source.split_once(&head).unwrap_or_else(|| panic!("no struct {name}"));
    let mut attributes = above.lines().rev().take_while(|line| line.starts_with("#["));
    assert!(attributes.any(|line| line == "#[repr(C)]"), "{name} has no #[repr(C)]");
    let (lines, _) = behind.split_once("\n}").expect("a struct has an end");
    lines.lines().map(str::trim).collect()
}

/// The same fields of the same types in the same order.
#[test]
fn the_source_has_the_same_structs() {
    let source = text_of("crates/rules/src/lib.rt") + &exporting_source();
    for Layout { name, fields, .. } in layouts() {
        let lines: Vec<String> =
            fields.iter().map(|field| format!("pub {}: {},", field.name, field.kind)).collect();
        assert_eq!(rattle_struct(&source, name), lines, "{name}");
    }
}

/// The C name of a type of the library's source; bytes and hits aside, the name of a struct.
fn c_type(name: &str) -> String {
    let layouts = layouts();
    match layouts.iter().find(|layout| layout.name == name) {
        Some(layout) => layout.c_name.to_string(),
        None if name == "u8" || name == "u32" => format!("uint{}_t", &name[1..]),
        None => panic!("no C type for {name}"),
    }
}

/// A parameter `NAME: &[T]`, `NAME: &mut [T]` or `NAME: usize` as C has it.
fn c_parameter(parameter: &str) -> String {
    let (name, kind) = parameter.split_once(": ").expect("a parameter has a type");
    if kind == "usize" {
        return format!("size_t {name}");
    }
    let (kind, constant) = kind.strip_prefix("&mut ").map_or((&kind[1..], "const "), |kind| (kind, ""));
    let item = c_type(kind.trim_matches(['[', ']']));
    format!("{constant}{item} *{name}, size_t {name}_len")
}

/// The declarations, as C has them, of the functions that a source exports.
fn c_declarations(source: &str) -> Vec<String> {
    let exported = source.split("pub extern \"C\" fn ").skip(1);
    let declaration = |text: &str| {
        let (name, behind) = text.split_once('(').expect("a function has parameters");
        let (parameters, behind) = behind.split_once(") -> ").expect("a function has an answer");
        let answer = behind.split_whitespace().next().expect("a function has an answer");
        let parameters = parameters.split(',').map(str::trim).filter(|parameter| !parameter.is_empty());
        let parameters: Vec<String> = parameters.map(c_parameter).collect();
        format!("{} {name}({});", c_type(answer), parameters.join(", "))
    };
    exported.map(declaration).collect()
}

/// Every exported function stands in the header, and no other.
#[test]
fn the_header_declares_what_the_source_exports() {
    let header = text_of("include/mrkvandel.h");
    let plain = header.split_whitespace().collect::<Vec<_>>().join(" ");
    let declarations = c_declarations(&exporting_source());
    assert_eq!(declarations.len(), 5, "each crate exports one function");
    for declaration in &declarations {
        assert!(plain.contains(declaration), "the header has no\n{declaration}");
    }
    assert_eq!(
        plain.matches(");").count(),
        declarations.len() + plain.matches("MRKVANDEL_ASSERT(sizeof").count()
    );
}

/// What the second program prints for a case.
type Text = fn(&Case) -> Result<Vec<u8>, Refusal>;

/// What a program is given of a case: the stream, the width list and, for the finder, more.
type Inputs = fn(&Case) -> Vec<&[u8]>;

const STREAM_AND_LIST: Inputs = |case| vec![&case.stream, &case.list];

/// A program over header and library, given the files of these inputs of a case, prints what the
/// second program prints; how many cases are accepted.
fn count_agreed(compiler: [&str; 4], name: &str, cases: fn(u64) -> Case, inputs: Inputs, text: Text) -> u32 {
    let label = format!("{name}-{}", compiler[3]);
    let program = temporary(&label);
    compile(compiler, &format!("{name}.c"), &program);
    let mut accepted = 0;
    for seed in 0..100 {
        let case = cases(seed);
        let files = put_files(&label, &inputs(&case));
        let expected = text(&case);
        accepted += u32::from(expected.is_ok());
        let expected = expected.unwrap_or_else(refusal_text).escape_ascii().to_string();
        let printed = output_of(&program, &files).stdout.escape_ascii().to_string();
        assert_eq!(printed, expected, "{label}, seed {seed}");
    }
    accepted
}

/// Writes inputs to files of their own.
fn put_files(label: &str, inputs: &[&[u8]]) -> Vec<PathBuf> {
    let put = |(place, bytes): (usize, &&[u8])| {
        let file = temporary(&format!("{label}-{place}"));
        std::fs::write(&file, bytes).expect("an input can be written");
        file
    };
    inputs.iter().enumerate().map(put).collect()
}

#[test]
fn the_reader_can_be_called_from_c_and_cplusplus() {
    let text: Text = |case| {
        let reading = second::read(&case.stream, &case.list, Rooms::default())?;
        Ok(glyphs_text(&case.stream, &reading))
    };
    for compiler in [C, CPLUSPLUS] {
        let accepted = count_agreed(compiler, "glyphs", case, STREAM_AND_LIST, text);
        assert!((10..90).contains(&accepted), "{accepted} of 100 streams are accepted");
    }
}

#[test]
fn the_finder_can_be_called_from_c_and_cplusplus() {
    let text: Text = |case| {
        let found = second::find(&case.stream, &case.list, &case.families, &case.query, Rooms::default())?;
        Ok(found_text(&found))
    };
    let inputs: Inputs = |case| vec![&case.stream, &case.list, &case.families, &case.query];
    for compiler in [C, CPLUSPLUS] {
        let accepted = count_agreed(compiler, "find", search, inputs, text);
        assert!((10..90).contains(&accepted), "{accepted} of 100 searches are accepted");
    }
    let has_hit = |seed: &u64| text(&search(*seed)).is_ok_and(|text| text.starts_with(b"hit"));
    assert!((0..100).filter(has_hit).count() >= 20, "few searches hit");
}

#[test]
fn the_rewriter_can_be_called_from_c_and_cplusplus() {
    let text: Text = |case| second::respell(&case.stream, &case.list, Rooms::default());
    for compiler in [C, CPLUSPLUS] {
        let accepted = count_agreed(compiler, "respell", case, STREAM_AND_LIST, text);
        assert!((10..90).contains(&accepted), "{accepted} of 100 streams are accepted");
    }
}

#[test]
fn judging_can_be_called_from_c_and_cplusplus() {
    let text: Text = |case| {
        let reading = second::read(&case.stream, &case.list, Rooms::default())?;
        let spelling = second::respell(&case.stream, &case.list, Rooms::default())?;
        let (records, entries) = (reading.records.len(), reading.entries.len());
        Ok(format!("accepted {records} {entries} {} {}\n", reading.pages, spelling.len()).into_bytes())
    };
    for compiler in [C, CPLUSPLUS] {
        let accepted = count_agreed(compiler, "judge", case, STREAM_AND_LIST, text);
        assert!((10..90).contains(&accepted), "{accepted} of 100 streams are accepted");
    }
}

/// What `first_name.c` prints for a call.
fn part_text(call: &FirstCall) -> Vec<u8> {
    let FirstCall { stream, families, place, length } = call;
    let part = first_part(stream, families, *place, *length);
    let head = match part {
        Part::Empty => "nowhere".to_string(),
        Part::Stream(name) => format!("stream {} {} ", name.place, name.length),
        Part::Families(name) => format!("families {} {} ", name.place, name.length),
    };
    [head.as_bytes(), part.of(stream, families), b"\n"].concat()
}

#[test]
fn a_first_name_can_be_asked_for_from_c_and_cplusplus() {
    for compiler in [C, CPLUSPLUS] {
        let label = format!("first_name-{}", compiler[3]);
        let program = temporary(&label);
        compile(compiler, "first_name.c", &program);
        let mut parts = [0; 3];
        for seed in 0..100 {
            let call = first_call(seed);
            let files = put_files(&label, &[&call.stream, &call.families]);
            let numbers = [call.place, call.length].map(|number| OsString::from(number.to_string()));
            let words: Vec<OsString> =
                files.into_iter().map(PathBuf::into_os_string).chain(numbers).collect();
            let expected = part_text(&call);
            let first = [b'n', b's', b'f'].iter().position(|&letter| expected[0] == letter);
            parts[first.expect("one of three words")] += 1;
            let printed = output_of(&program, &words).stdout.escape_ascii().to_string();
            assert_eq!(printed, expected.escape_ascii().to_string(), "{label}, seed {seed}");
        }
        assert!(parts.iter().all(|&count| count >= 15), "nowhere, in the stream, in the list: {parts:?}");
    }
}
