//! The proved programs, run on files and held to the second program.

use second::print::{line_and_column, refusal_text};
use second::refusal::{reason, LIST_LIMIT, QUERY, QUERY_LIMIT, STREAM_LIMIT, TOO_LONG, WIDTH_LIST};
use second::vectors;
use second::{generate, Refusal, Rooms};
use std::collections::BTreeMap;
use std::path::{Path, PathBuf};
use std::process::{Command, Output};

/// The longest stream that the programs take, and their room for records, entries and hits, and for
/// the bytes of a spelling.
pub const STREAM_MOST: usize = 1_048_576;
pub const ROOM: usize = 65_536;
pub const SPELLING_ROOM: usize = 4_194_304;

/// The rooms of the programs.
pub fn rooms() -> Rooms {
    Rooms { records: ROOM, entries: ROOM, hits: ROOM, spelling: SPELLING_ROOM }
}

/// How many generated cases each program is run on.
pub const GENERATED: u64 = 3_000;

/// Compares a program on one case: its runner, the case's name, the stream and the list.
pub type Compare = fn(&Runner, &str, &[u8], &[u8], &mut Seen);

/// A file's name and bytes.
pub type File<'a> = (&'a str, &'a [u8]);

/// How many cases were accepted, how many refused under each number, and how many had a stream
/// longer than the programs take.
#[derive(Debug, Default)]
pub struct Seen {
    pub accepted: usize,
    pub refused: BTreeMap<u8, usize>,
    pub longer: usize,
}

impl Seen {
    pub fn refusals(&self) -> usize {
        self.refused.values().sum()
    }

    pub fn refusals_of(&self, number: u8) -> usize {
        self.refused.get(&number).copied().unwrap_or_default()
    }
}

/// A program, and a folder of its own for the files it is run on.
pub struct Runner {
    program: PathBuf,
    folder: PathBuf,
}

impl Runner {
    /// The program `small_NAME`, as its crate has it, with the folder `target/programs/NAME-LABEL`.
    pub fn new(name: &str, label: &str) -> Runner {
        let root = Path::new(env!("CARGO_MANIFEST_DIR")).join("..");
        let built = format!("crates/small_{name}/out/small_{name}");
        let program = root.join(&built);
        assert!(
            program.is_file(),
            "{built} is missing: run `rt ci`, or `rt run` in crates/small_{name}, first"
        );
        let program = program.canonicalize().expect("the program has a path");
        let folder = root.join("target/programs").join(format!("{name}-{label}"));
        std::fs::create_dir_all(&folder).expect("a folder for the files can be made");
        Runner { program, folder }
    }

    /// Runs the program on the files of a case, the stream first, and holds both its outputs to
    /// what the second program answers.
    pub fn compare(&self, label: &str, files: &[File], expected: Result<Vec<u8>, Refusal>, seen: &mut Seen) {
        let output = self.run(files);
        assert_eq!(output.status.code(), Some(0), "{label}: crashed");
        if files[0].1.len() > STREAM_MOST {
            seen.longer += 1;
            let said = format!("{}: over 1,048,576 bytes, more than this program takes\n", files[0].0);
            return assert_wrote(label, &output, b"", &said);
        }
        match expected {
            Ok(text) => {
                seen.accepted += 1;
                assert_wrote(label, &output, &text, "");
            }
            Err(refusal) => {
                *seen.refused.entry(refusal.number).or_default() += 1;
                assert_wrote(label, &output, &refusal_text(refusal), &line_for_people(refusal, files));
            }
        }
    }

    /// Runs the program in its folder on files of these names and bytes.
    fn run(&self, files: &[File]) -> Output {
        for (name, bytes) in files {
            std::fs::write(self.folder.join(name), bytes).expect("a file can be written");
        }
        let names = files.iter().map(|(name, _)| name);
        Command::new(&self.program).args(names).current_dir(&self.folder).output().expect("the program runs")
    }
}

/// Compares a program on the stream and list of every vector.
pub fn compare_vectors(name: &str, compare: Compare) -> Seen {
    let (runner, mut seen) = (Runner::new(name, "vectors"), Seen::default());
    let cases = vectors::all_cases().expect("the vectors can be read");
    assert!(cases.len() >= vectors::LEAST_CASES, "{} vectors", cases.len());
    for case in &cases {
        compare(&runner, &case.name, &case.stream, &case.list, &mut seen);
    }
    println!("{} vectors: {seen:?}", cases.len());
    seen
}

/// Compares a program on generated cases.
pub fn compare_generated(name: &str, compare: Compare) -> Seen {
    let (runner, mut seen) = (Runner::new(name, "generated"), Seen::default());
    for seed in 0..GENERATED {
        let case = generate::case(seed);
        compare(&runner, &format!("seed {seed}"), &case.stream, &case.list, &mut seen);
    }
    println!("{GENERATED} generated cases: {seen:?}");
    seen
}

fn assert_wrote(label: &str, output: &Output, text: &[u8], said: &str) {
    assert!(output.stdout == text, "{label}: standard output differs");
    assert_eq!(String::from_utf8_lossy(&output.stderr), said, "{label}: standard error");
}

/// The line for people about a refusal of a stream, a list and, for the finder, a query.
fn line_for_people(refusal: Refusal, files: &[File]) -> String {
    let (name, bytes) = match refusal.number {
        TOO_LONG => too_long(files),
        WIDTH_LIST => files[1],
        QUERY => files[2],
        _ => files[0],
    };
    let (line, column) = line_and_column(bytes, refusal.offset);
    format!("{name}: line {line}, column {column}: {}\n", small_reason(refusal.number))
}

/// The second program's reason; of 1 without the family list, which these programs do not take.
fn small_reason(number: u8) -> String {
    reason(number).replace("a list over", "the list over")
}

/// The first file over its limit.
fn too_long<'a>(files: &[File<'a>]) -> File<'a> {
    let limits = [STREAM_LIMIT, LIST_LIMIT, QUERY_LIMIT];
    let mut sized = files.iter().zip(limits);
    sized.find(|((_, bytes), limit)| bytes.len() > *limit).map_or(files[0], |(file, _)| *file)
}
