//! The vector files: inputs with expected answers, parsed and run against a program.
//! The format is described in README.md and at the top of each file.

use crate::bytes::Name;
use crate::print::{found_text, glyphs_text};
use crate::refusal::{Refusal, Rooms};
use crate::{find, first_name, read, respell, Part};
use std::fmt::Debug;
use std::path::{Path, PathBuf};

/// What stands before and behind the fragment of a `body` case.
pub const BODY_HEAD: &[u8] = b"x T ps\nx res 72000 1 1\nx init\np1\nx font 1 TR\nf1\ns10000\n";
pub const BODY_TAIL: &[u8] = b"\nx stop\n";
/// The house spelling of `BODY_HEAD`.
pub const SPELT_HEAD: &[u8] = b"x T ps\nx r 72000 1 1\nx i\np 1\nx f 1 TR\nf 1\ns 10000\n";
/// The sample list of 01, for cases without a `list` line.
pub const SAMPLE_LIST: &[u8] = b"unitwidth=1000\nfont=TR\nbyte=97\nwidth=44\nbyte=98\nwidth=50\n";
/// The rest of the search that a family list of a `judged` case is given to.
pub const JUDGED_BODY: &[u8] = b"ca";
pub const JUDGED_QUERY: &[u8] = b"glyph=a\n";

/// A program under test: each routine answers the text of FORMATS or a refusal, and for a first name which
/// part was handed back, `None` for bytes that are a part of neither input (`Part::by_address` tells).
pub trait Program {
    fn glyphs(&self, stream: &[u8], list: &[u8], rooms: Rooms) -> Result<Vec<u8>, Refusal>;
    fn respell(&self, stream: &[u8], list: &[u8], rooms: Rooms) -> Result<Vec<u8>, Refusal>;
    fn find(
        &self,
        stream: &[u8],
        list: &[u8],
        families: &[u8],
        query: &[u8],
        rooms: Rooms,
    ) -> Result<Vec<u8>, Refusal>;
    fn first_name(&self, stream: &[u8], families: &[u8], place: usize, length: usize) -> Option<Part>;
}

/// The second program itself.
pub struct Second;

impl Program for Second {
    fn glyphs(&self, stream: &[u8], list: &[u8], rooms: Rooms) -> Result<Vec<u8>, Refusal> {
        read(stream, list, rooms).map(|reading| glyphs_text(stream, &reading))
    }

    fn respell(&self, stream: &[u8], list: &[u8], rooms: Rooms) -> Result<Vec<u8>, Refusal> {
        respell(stream, list, rooms)
    }

    fn find(
        &self,
        stream: &[u8],
        list: &[u8],
        families: &[u8],
        query: &[u8],
        rooms: Rooms,
    ) -> Result<Vec<u8>, Refusal> {
        find(stream, list, families, query, rooms).map(|found| found_text(&found))
    }

    fn first_name(&self, stream: &[u8], families: &[u8], place: usize, length: usize) -> Option<Part> {
        Part::by_address(first_name(stream, families, place, length), stream, families)
    }
}

#[derive(Clone, Copy, Debug, PartialEq, Eq)]
pub enum Routine {
    Reader,
    Rewriter,
    Finder,
}

/// `None`: accepted.
pub type Answer = Option<Refusal>;

#[derive(Clone, Debug, PartialEq, Eq)]
pub enum Check {
    /// the routine's answer, accepted or refused
    Answer(Routine, Answer),
    /// the routine's whole text
    Text(Routine, Vec<u8>),
    /// a line of the reader's text, its newline aside
    Has(Vec<u8>),
    /// the first name for a record of this place and length
    First { place: usize, length: usize, part: Part },
}

/// One case: the inputs and what is expected of them.
#[derive(Clone, Debug, Default)]
pub struct Case {
    pub name: String,
    pub stream: Vec<u8>,
    pub list: Vec<u8>,
    pub families: Vec<u8>,
    pub query: Option<Vec<u8>>,
    pub rooms: Rooms,
    pub checks: Vec<Check>,
}

/// How many cases the vector files have at the least: every test that runs them asks for so many, so
/// that a file that is lost is missed.
pub const LEAST_CASES: usize = 2_476;

/// The cases of every vector file of the repository, in the order of the files' names.
pub fn all_cases() -> Result<Vec<Case>, String> {
    let folder = Path::new(env!("CARGO_MANIFEST_DIR")).join("../vectors");
    let listed = |error: std::io::Error| format!("{}: {error}", folder.display());
    let entries = folder.read_dir().and_then(Iterator::collect::<Result<Vec<_>, _>>).map_err(listed)?;
    let mut paths: Vec<PathBuf> = entries.iter().map(std::fs::DirEntry::path).collect();
    paths.retain(|path| path.extension().is_some_and(|extension| extension == "vec"));
    paths.sort();
    let cases = paths.iter().map(|path| cases_of(path)).collect::<Result<Vec<_>, _>>()?;
    Ok(cases.concat())
}

fn cases_of(path: &Path) -> Result<Vec<Case>, String> {
    let text = std::fs::read_to_string(path).map_err(|error| format!("{}: {error}", path.display()))?;
    parse(&text).map_err(|message| format!("{}: {message}", path.display()))
}

/// Parses a vector file. Blocks of lines `key value`, parted by blank lines.
pub fn parse(text: &str) -> Result<Vec<Case>, String> {
    let mut blocks: Vec<Vec<(usize, &str)>> = vec![Vec::new()];
    for (number, line) in text.lines().enumerate().filter(|(_, line)| !line.starts_with('#')) {
        match blocks.last_mut() {
            Some(block) if !line.is_empty() => block.push((number + 1, line)),
            _ => blocks.push(Vec::new()),
        }
    }
    blocks.iter().filter(|block| !block.is_empty()).map(|block| parse_block(block)).collect()
}

/// The lines of one block, as they are gathered.
#[derive(Default)]
struct Block {
    name: Option<String>,
    body: Option<Vec<u8>>,
    stream: Option<Vec<u8>>,
    list: Option<Vec<u8>>,
    families: Option<Vec<u8>>,
    query: Option<Vec<u8>>,
    rooms: Rooms,
    /// whether the family list is judged alone
    judged: bool,
    firsts: Vec<FirstCall>,
    /// `glyphs`, `respell`, `spelt`, `find` texts, several lines of one key joined
    texts: Vec<(String, Vec<u8>)>,
    /// `expect`, `reader`, `rewriter`, `finder` with their answers
    answers: Vec<(String, Answer)>,
    has: Vec<Vec<u8>>,
}

/// A `first` line: the call, the part that comes back (`None`: the empty one), and its bytes.
struct FirstCall {
    place: usize,
    length: usize,
    part: Option<PartPlace>,
    name: Vec<u8>,
}

/// Where a name handed back stands.
enum PartPlace {
    /// at the record's place
    Stream,
    Families(usize),
}

fn parse_block(lines: &[(usize, &str)]) -> Result<Case, String> {
    let mut block = Block::default();
    for (number, line) in lines {
        block.take(line).map_err(|message| format!("line {number}: {message}: {line}"))?;
    }
    let first_line = lines[0].0;
    block.finish().map_err(|message| format!("block at line {first_line}: {message}"))
}

impl Block {
    fn take(&mut self, line: &str) -> Result<(), String> {
        let (key, value) = line.split_once(' ').unwrap_or((line, ""));
        match key {
            "case" => self.name = Some(value.to_string()),
            "body" => join(&mut self.body, &unescape(value)?),
            "stream" => join(&mut self.stream, &unescape(value)?),
            "list" => join(&mut self.list, &unescape(value)?),
            "families" => join(&mut self.families, &unescape(value)?),
            "query" => join(&mut self.query, &unescape(value)?),
            "records" => self.rooms.records = parse_number(value)?,
            "entries" => self.rooms.entries = parse_number(value)?,
            "hits" => self.rooms.hits = parse_number(value)?,
            "spelling" => self.rooms.spelling = parse_number(value)?,
            "expect" | "reader" | "rewriter" | "finder" => {
                self.answers.push((key.to_string(), parse_answer(value)?));
            }
            "judged" => {
                self.judged = true;
                self.answers.push(("finder".to_string(), parse_answer(value)?));
            }
            "first" => self.firsts.push(parse_first(value)?),
            "has" => self.has.push(unescape(value)?),
            "glyphs" | "respell" | "spelt" | "find" => self.take_text(key, &unescape(value)?),
            _ => return Err("unknown key".to_string()),
        }
        Ok(())
    }

    fn take_text(&mut self, key: &str, text: &[u8]) {
        match self.texts.iter_mut().find(|(known, _)| known == key) {
            Some((_, joined)) => joined.extend(text),
            None => self.texts.push((key.to_string(), text.to_vec())),
        }
    }

    /// A family list "judged alone" is given to a sound search.
    fn add_sound_search(&mut self) -> Result<(), String> {
        let is_alone = self.body.is_none() && self.stream.is_none() && self.query.is_none();
        if !is_alone || self.families.is_none() {
            return Err("judged needs a family list and no body, stream or query".to_string());
        }
        self.body = Some(JUDGED_BODY.to_vec());
        self.query = Some(JUDGED_QUERY.to_vec());
        Ok(())
    }

    fn finish(mut self) -> Result<Case, String> {
        if self.judged {
            self.add_sound_search()?;
        }
        let (stream, base) = match (&self.body, &self.stream) {
            (Some(body), None) => ([BODY_HEAD, body, BODY_TAIL].concat(), BODY_HEAD.len()),
            (None, Some(stream)) => (stream.clone(), 0),
            _ => return Err("needs a body or a stream".to_string()),
        };
        let families = self.families.take().unwrap_or_default();
        let mut checks = self.checks(base);
        for call in &self.firsts {
            checks.push(first_check(call, base, &stream, &families)?);
        }
        if checks.is_empty() {
            return Err("expects nothing".to_string());
        }
        Ok(Case {
            name: self.name.ok_or("needs a name")?,
            stream,
            list: self.list.unwrap_or(SAMPLE_LIST.to_vec()),
            families,
            query: self.query,
            rooms: self.rooms,
            checks,
        })
    }

    /// The checks of the three routines.
    fn checks(&self, base: usize) -> Vec<Check> {
        let mut checks = Vec::new();
        for (key, answer) in &self.answers {
            let answer = answer.map(|refusal| from_fragment(refusal, base));
            let routines = self.routines(key);
            checks.extend(routines.into_iter().map(|routine| Check::Answer(routine, answer)));
        }
        for (key, text) in &self.texts {
            checks.push(match key.as_str() {
                "glyphs" => Check::Text(Routine::Reader, text.clone()),
                "respell" => Check::Text(Routine::Rewriter, text.clone()),
                "find" => Check::Text(Routine::Finder, text.clone()),
                _ => Check::Text(Routine::Rewriter, [SPELT_HEAD, text].concat()),
            });
        }
        checks.extend(self.has.iter().map(|line| Check::Has(line.clone())));
        checks
    }

    fn routines(&self, key: &str) -> Vec<Routine> {
        match key {
            "reader" => vec![Routine::Reader],
            "rewriter" => vec![Routine::Rewriter],
            "finder" => vec![Routine::Finder],
            _ if self.query.is_some() => vec![Routine::Reader, Routine::Rewriter, Routine::Finder],
            _ => vec![Routine::Reader, Routine::Rewriter],
        }
    }
}

fn join(value: &mut Option<Vec<u8>>, more: &[u8]) {
    value.get_or_insert_with(Vec::new).extend(more);
}

/// In a `body` case the offset of a refusal about the stream counts from the fragment's start.
fn from_fragment(refusal: Refusal, base: usize) -> Refusal {
    let is_about_stream = matches!(refusal.number, 3..=11 | 16);
    let offset = if is_about_stream { refusal.offset + base } else { refusal.offset };
    Refusal { offset, ..refusal }
}

/// The check of a `first` line, of which the place counts from the fragment's start too. The part that it
/// names must have the bytes that it names.
fn first_check(call: &FirstCall, base: usize, stream: &[u8], families: &[u8]) -> Result<Check, String> {
    let place = call.place.checked_add(base).ok_or("too large a place for a body")?;
    let (part, inside) = match call.part {
        None => (Part::Empty, Some(&[][..])),
        Some(PartPlace::Stream) => {
            let name = Name { place, length: call.length };
            (Part::Stream(name), stream.get(place..).and_then(|rest| rest.get(..call.length)))
        }
        Some(PartPlace::Families(place)) => {
            let name = Name { place, length: call.name.len() };
            (Part::Families(name), families.get(place..).and_then(|rest| rest.get(..name.length)))
        }
    };
    if inside != Some(&call.name[..]) {
        return Err("the name does not stand there".to_string());
    }
    Ok(Check::First { place, length: call.length, part })
}

/// `PLACE LENGTH empty`, `PLACE LENGTH stream NAME` or `PLACE LENGTH families PLACE NAME`
fn parse_first(value: &str) -> Result<FirstCall, String> {
    let words: Vec<&str> = value.split(' ').collect();
    let (part, name) = match words[..] {
        [_, _, "empty"] => (None, ""),
        [_, _, "stream", name] => (Some(PartPlace::Stream), name),
        [_, _, "families", place, name] => (Some(PartPlace::Families(parse_number(place)?)), name),
        _ => return Err("wrong first name".to_string()),
    };
    let (place, length) = (parse_number(words[0])?, parse_number(words[1])?);
    Ok(FirstCall { place, length, part, name: unescape(name)? })
}

fn parse_number(value: &str) -> Result<usize, String> {
    value.parse().map_err(|_| "wrong number".to_string())
}

/// `ok` or `refused NUMBER OFFSET`
fn parse_answer(value: &str) -> Result<Answer, String> {
    let words: Vec<&str> = value.split(' ').collect();
    match words[..] {
        ["ok"] => Ok(None),
        ["refused", number, offset] => Ok(Some(Refusal {
            number: number.parse().map_err(|_| "wrong refusal number")?,
            offset: parse_number(offset)?,
        })),
        _ => Err("wrong answer".to_string()),
    }
}

/// `\n`, `\t`, `\\`, `\s` (space), `\xHH` and the repetition `\{BYTES*COUNT}`, in which `\#` is the number of
/// the copy, from 0, in four digits.
pub fn unescape(text: &str) -> Result<Vec<u8>, String> {
    unescape_copy(text, None)
}

/// The same for a copy of a repetition.
fn unescape_copy(text: &str, copy: Option<usize>) -> Result<Vec<u8>, String> {
    let mut bytes = Vec::new();
    let mut rest = text;
    while let Some((plain, escaped)) = rest.split_once('\\') {
        bytes.extend(plain.bytes());
        rest = take_escape(escaped, copy, &mut bytes)?;
    }
    bytes.extend(rest.bytes());
    Ok(bytes)
}

/// Takes one escape, its backslash aside, and returns what stands behind it.
fn take_escape<'a>(escaped: &'a str, copy: Option<usize>, bytes: &mut Vec<u8>) -> Result<&'a str, String> {
    let letter = escaped.chars().next().ok_or("lone backslash")?;
    let rest = &escaped[letter.len_utf8()..];
    match letter {
        'n' => bytes.push(b'\n'),
        't' => bytes.push(b'\t'),
        's' => bytes.push(b' '),
        '\\' => bytes.push(b'\\'),
        '#' => bytes.extend(format!("{:04}", copy.ok_or("\\# outside a repetition")?).bytes()),
        'x' => {
            let digits = rest.get(..2).ok_or("short \\x")?;
            bytes.push(u8::from_str_radix(digits, 16).map_err(|_| "wrong \\x")?);
            return Ok(&rest[2..]);
        }
        '{' => {
            let (repetition, rest) = rest.split_once('}').ok_or("open repetition")?;
            let (part, count) = repetition.split_once('*').ok_or("repetition without count")?;
            bytes.extend(repeat(part, parse_number(count)?)?);
            return Ok(rest);
        }
        _ => return Err(format!("unknown escape {letter}")),
    }
    Ok(rest)
}

/// The copies of a repetition, which are alike where they do not tell their number.
fn repeat(part: &str, count: usize) -> Result<Vec<u8>, String> {
    let (first, second) = (unescape_copy(part, Some(0))?, unescape_copy(part, Some(1))?);
    if first == second {
        return Ok(first.repeat(count));
    }
    let copies = (0..count).map(|copy| unescape_copy(part, Some(copy)));
    Ok(copies.collect::<Result<Vec<_>, _>>()?.concat())
}

/// Runs one case; the message of a failure names the case, what was expected and what came.
pub fn run(case: &Case, program: &dyn Program) -> Result<(), String> {
    case.checks
        .iter()
        .try_for_each(|check| run_check(case, check, program))
        .map_err(|message| format!("case {}: {message}", case.name))
}

fn run_check(case: &Case, check: &Check, program: &dyn Program) -> Result<(), String> {
    match check {
        Check::Answer(routine, expected) => {
            let answer = run_routine(case, *routine, program).err();
            agree(answer == *expected, routine, format!("{expected:?}"), format!("{answer:?}"))
        }
        Check::Text(routine, expected) => {
            let answer = run_routine(case, *routine, program);
            let agrees = answer.as_ref() == Ok(expected);
            agree(
                agrees,
                routine,
                shown(expected),
                answer.map_or_else(|r| format!("{r:?}"), |text| shown(&text)),
            )
        }
        Check::Has(line) => {
            let text =
                run_routine(case, Routine::Reader, program).map_err(|refusal| format!("{refusal:?}"))?;
            let has = text.split(|&byte| byte == b'\n').any(|known| known == line);
            agree(has, &Routine::Reader, shown(line), shown(&text))
        }
        Check::First { place, length, part } => {
            let answer = program.first_name(&case.stream, &case.families, *place, *length);
            agree(answer == Some(*part), &"FirstName", format!("{part:?}"), format!("{answer:?}"))
        }
    }
}

fn agree(agrees: bool, routine: &dyn Debug, expected: String, came: String) -> Result<(), String> {
    if agrees {
        return Ok(());
    }
    Err(format!("{routine:?}: expected\n{expected}\ncame\n{came}"))
}

fn run_routine(case: &Case, routine: Routine, program: &dyn Program) -> Result<Vec<u8>, Refusal> {
    match routine {
        Routine::Reader => program.glyphs(&case.stream, &case.list, case.rooms),
        Routine::Rewriter => program.respell(&case.stream, &case.list, case.rooms),
        Routine::Finder => {
            let query = case.query.as_deref().unwrap_or_default();
            program.find(&case.stream, &case.list, &case.families, query, case.rooms)
        }
    }
}

fn shown(text: &[u8]) -> String {
    text[..text.len().min(4000)].escape_ascii().to_string().replace("\\n", "\n")
}

/// Runs every case of a file; all failures, or the number of cases.
pub fn run_all(text: &str, program: &dyn Program) -> Result<usize, String> {
    let cases = parse(text)?;
    let failures: Vec<String> = cases.iter().filter_map(|case| run(case, program).err()).collect();
    if failures.is_empty() {
        return Ok(cases.len());
    }
    Err(format!("{} of {} cases fail\n{}", failures.len(), cases.len(), failures.join("\n")))
}
