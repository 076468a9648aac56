//! How long the rows are that a routine is lent, against what its input needs; and the counts of
//! what was seen.

use crate::{FindResult, FirstNameResult, JudgeResult, ReadResult, RespellResult};
use second::generate::random::Random;
use std::fmt::Debug;
use std::io::Write;

/// How the two rows of a routine are measured: the records, and the entries, hits or bytes. The
/// rewriter has a row of bytes alone.
#[derive(Clone, Copy, Debug, PartialEq, Eq)]
pub enum Measure {
    ExactlyEnough,
    OneRecordTooFew,
    /// one entry, hit or byte
    OneOtherTooFew,
    Nothing,
    Plenty,
    WithoutOrder,
}

pub const MEASURES: [Measure; 6] = [
    Measure::ExactlyEnough,
    Measure::OneRecordTooFew,
    Measure::OneOtherTooFew,
    Measure::Nothing,
    Measure::Plenty,
    Measure::WithoutOrder,
];

/// A routine's answer.
pub trait Answer: Copy + Debug + PartialEq {
    /// the measures that there are for its rows
    const MEASURES: &'static [Measure] = &MEASURES;

    fn refusal(&self) -> u32;
    /// how many items go into each row
    fn counts(&self) -> [usize; 2];
}

impl Answer for ReadResult {
    fn refusal(&self) -> u32 {
        self.refusal
    }

    fn counts(&self) -> [usize; 2] {
        [self.records, self.entries]
    }
}

impl Answer for FindResult {
    fn refusal(&self) -> u32 {
        self.refusal
    }

    fn counts(&self) -> [usize; 2] {
        [self.records, self.hits]
    }
}

impl Answer for RespellResult {
    const MEASURES: &'static [Measure] = &[
        Measure::ExactlyEnough,
        Measure::OneOtherTooFew,
        Measure::Nothing,
        Measure::Plenty,
        Measure::WithoutOrder,
    ];

    fn refusal(&self) -> u32 {
        self.refusal
    }

    fn counts(&self) -> [usize; 2] {
        [0, self.len]
    }
}

/// Judging is lent nothing.
impl Answer for JudgeResult {
    const MEASURES: &'static [Measure] = &[];

    fn refusal(&self) -> u32 {
        self.refusal
    }

    fn counts(&self) -> [usize; 2] {
        [0, 0]
    }
}

/// A first name is lent nothing, and refused never.
impl Answer for FirstNameResult {
    const MEASURES: &'static [Measure] = &[];

    fn refusal(&self) -> u32 {
        0
    }

    fn counts(&self) -> [usize; 2] {
        [0, 0]
    }
}

/// A stream over so many bytes is run once only, to save time.
const LONG: usize = 1_000_000;

/// The lengths of both rows by every measure that there is for an input: a stream of this length,
/// with this answer where the rows are large enough.
pub fn lengths<A: Answer>(answer: &A, stream: usize, random: &mut Random) -> Vec<(Measure, [usize; 2])> {
    let measures = if stream > LONG { &[Measure::Plenty] } else { A::MEASURES };
    let by = |&measure| Some((measure, measured(measure, answer, random)?));
    measures.iter().filter_map(by).collect()
}

/// A refused stream needs nothing of its own: rows of some size, and none, will do.
fn measured(measure: Measure, answer: &impl Answer, random: &mut Random) -> Option<[usize; 2]> {
    let is_accepted = answer.refusal() == 0;
    let [records, others] = if is_accepted { answer.counts() } else { [30, 15] };
    let is_exact = !matches!(measure, Measure::Nothing | Measure::Plenty | Measure::WithoutOrder);
    if is_exact && !is_accepted {
        return None;
    }
    Some(match measure {
        Measure::ExactlyEnough => [records, others],
        Measure::OneRecordTooFew => [records.checked_sub(1)?, others + random.below(3)],
        Measure::OneOtherTooFew => [records + random.below(3), others.checked_sub(1)?],
        Measure::Nothing => [0, 0],
        Measure::Plenty => [records + 1 + random.below(20), others + 1 + random.below(20)],
        Measure::WithoutOrder => {
            let most = if random.once_in(2) { others.max(records) } else { others };
            [random.below(2 * records + 2), random.below(2 * most + 2)]
        }
    })
}

/// How often each answer was seen for rows of each measure: by refusal number, 0 for accepted.
#[derive(Clone, Debug, Default, PartialEq, Eq)]
pub struct Seen {
    pub inputs: u64,
    /// the measures that the routine's rows have
    measures: &'static [Measure],
    /// accepted inputs that need no room at all
    pub needless: u64,
    /// inputs whose spelling is too long for any room
    pub hopeless: u64,
    pub answers: [[u64; 17]; 6],
}

impl Seen {
    /// An input, by its answer where the rows are large enough.
    pub fn input<A: Answer>(&mut self, answer: &A) {
        self.inputs += 1;
        self.measures = A::MEASURES;
        self.needless += u64::from(answer.refusal() == 0 && answer.counts() == [0, 0]);
        self.hopeless += u64::from(answer.refusal() == 13);
    }

    pub fn count(&mut self, measure: Measure, answer: &impl Answer) {
        self.answers[measure as usize][answer.refusal() as usize] += 1;
    }

    /// How often an answer came, whatever the rows.
    pub fn times(&self, refusal: usize) -> u64 {
        self.answers.iter().map(|counts| counts[refusal]).sum()
    }

    pub fn runs(&self) -> u64 {
        self.answers.iter().flatten().sum()
    }

    /// Each of these refusals, and no other, came at least `least` times, and rows were as their
    /// measure says. Prints the counts.
    pub fn assert_all(&self, label: &str, refusals: &[usize], least: u64) {
        let counted = |number: &usize| format!("{number}: {}", self.times(*number));
        let counts: Vec<String> = refusals.iter().map(counted).collect();
        let (inputs, runs, accepted) = (self.inputs, self.runs(), self.times(0));
        say(&format!(
            "{label}: {inputs} inputs, {runs} runs, {accepted} accepted, refused {}",
            counts.join(", ")
        ));
        self.measures.iter().for_each(|&measure| self.assert_measure(label, measure, least));
        for number in 1..=16 {
            let times = self.times(number);
            let is_due = refusals.contains(&number);
            assert!(if is_due { times >= least } else { times == 0 }, "{label}: {number} came {times} times");
        }
    }

    fn assert_measure(&self, label: &str, measure: Measure, least: u64) {
        let counts = self.answers[measure as usize];
        let (all, accepted, no_room) = (counts.iter().sum::<u64>(), counts[0], counts[13]);
        say(&format!("  {measure:?}: {all} runs, {accepted} accepted, {no_room} without room"));
        let is_as_it_says = match measure {
            Measure::ExactlyEnough => accepted >= least && no_room == 0,
            Measure::Plenty => accepted >= least && no_room == self.hopeless,
            Measure::OneRecordTooFew | Measure::OneOtherTooFew => no_room >= least && no_room == all,
            Measure::Nothing => no_room >= least && accepted <= self.needless,
            Measure::WithoutOrder => no_room >= least && accepted >= least,
        };
        assert!(is_as_it_says, "{label}: {measure:?} {counts:?}");
    }
}

/// Prints a line even where the test passes.
pub fn say(line: &str) {
    let _ = writeln!(std::io::stderr(), "{line}");
}
