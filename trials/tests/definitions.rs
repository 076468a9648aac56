//! The definitions, computed by the prover, against the second program.

use second::generate;
use second::generate::first::{first_call, FirstCall};
use second::vectors::{self, Case};
use std::io::Write;
use trials::{call_check, checks, family_checks, is_within, prove, Check, Verdict};

/// The bounds in bytes of a stream, a list and a query; far larger ones exceed the prover's steps.
const VECTOR_LIMIT: usize = 4_200;
const GENERATED_LIMIT: usize = 900;

const SEEDS: std::ops::Range<u64> = 0..300;
const CALLS: std::ops::Range<u64> = 0..300;

/// Prints a line even where the test passes.
fn say(line: String) {
    let _ = writeln!(std::io::stderr(), "{line}");
}

fn proved(checks: &[Check]) -> Verdict {
    prove(checks).expect("the repository can be written and `rt`, of the Rattle kit, is on the PATH")
}

/// Proves the checks of all cases within the limit; the number of checks.
fn agree(label: &str, mut cases: Vec<Case>, limit: usize) -> usize {
    let all = cases.len();
    cases.retain(|case| is_within(case, limit));
    let checks = checks(&cases);
    assert_proved(label, &checks);
    let (made, skipped) = (checks.len(), all - cases.len());
    say(format!("{label}: {made} checks of {} cases, {skipped} cases over the bounds skipped", cases.len()));
    let listed = cases.iter().filter(|case| !case.families.is_empty()).count();
    let first_names = checks.iter().filter(|check| check.name.starts_with("first")).count();
    say(format!(
        "  {listed} of the cases have a family list, {first_names} of the checks are of first names"
    ));
    made
}

/// Proves the checks, or names those that are refused.
fn assert_proved(label: &str, checks: &[Check]) {
    let verdict = proved(checks);
    let refused: Vec<String> = checks
        .iter()
        .filter(|check| verdict.refuses(&check.name))
        .map(|check| format!("{} of case {}", check.name, check.case))
        .collect();
    assert!(verdict.is_proved(), "{label}: refused: {refused:?}\n{}", verdict.output);
}

fn vector_cases() -> Vec<Case> {
    vectors::all_cases().expect("the vectors can be read")
}

fn generated_case(seed: u64) -> Case {
    let generate::Case { stream, list, families, query, rooms } = generate::case(seed);
    Case {
        name: format!("seed {seed}"),
        stream,
        list,
        families,
        query: Some(query),
        rooms,
        checks: Vec::new(),
    }
}

#[test]
fn vectors_agree() {
    let made = agree("vectors_agree", vector_cases(), VECTOR_LIMIT);
    assert!(made > 4_500, "vectors are missing");
}

#[test]
fn generated_cases_agree() {
    let made = agree("generated_cases_agree", SEEDS.map(generated_case).collect(), GENERATED_LIMIT);
    assert!(made > 500, "most generated cases are over the limit");
}

/// Calls for first names: of records, of made-up ones, of places that do not lie in the stream.
#[test]
fn generated_first_names_agree() {
    let mut calls: Vec<(u64, FirstCall)> = CALLS.map(|seed| (seed, first_call(seed))).collect();
    let is_within = |input: &[u8]| input.len() <= GENERATED_LIMIT;
    calls.retain(|(_, call)| is_within(&call.stream) && is_within(&call.families));
    let checks: Vec<Check> = calls.iter().map(|(seed, call)| call_check(*seed, call)).collect();
    assert_proved("generated_first_names_agree", &checks);
    let in_families = checks.iter().filter(|check| check.expected.starts_with(b"families")).count();
    let made = checks.len();
    say(format!("generated_first_names_agree: {made} checks, {in_families} of names in a family"));
    assert!(made > 200 && in_families > 50, "{made} calls, {in_families} in a family");
}

/// Family lists over the bound in bytes that show how many families there may be, for the finder:
/// 256, and one more. A first name by such a list is compared in routines/.
const FULL_LISTS: [&str; 2] = ["2026-01.5.w13", "2026-01.5.w14"];

#[test]
fn full_family_lists_agree() {
    let mut cases = vector_cases();
    cases.retain(|case| FULL_LISTS.contains(&case.name.as_str()));
    assert_eq!(cases.len(), FULL_LISTS.len(), "vectors are missing");
    assert!(cases.iter().all(|case| !is_within(case, VECTOR_LIMIT)), "they are within the bounds");
    let numbered = cases.iter().enumerate();
    let checks: Vec<Check> = numbered.flat_map(|(number, case)| family_checks(number, case)).collect();
    assert_proved("full_family_lists_agree", &checks);
    say(format!("full_family_lists_agree: {} checks of {} cases", checks.len(), cases.len()));
}

/// A check with one expected byte changed.
fn with_wrong_byte(check: &Check) -> Check {
    let mut wrong = Check { name: format!("{}wrong", check.name), ..check.clone() };
    let middle = wrong.expected.len() / 2;
    wrong.expected[middle] ^= 1;
    wrong
}

/// The checks of a small case pass; the same with one wrong byte are refused, each by its name.
#[test]
fn a_wrong_expectation_is_refused() {
    let case = "case small\nbody taaa\nfamilies name=b\\nsame=a\\n\nquery glyph=a\\nglyph=b\\n\nexpect ok\n\
        first 1 1 families 5 b\nfirst 1 2 stream aa\nfirst 0 0 empty\n";
    let right = checks(&vectors::parse(case).expect("the case is well formed"));
    let wrong: Vec<Check> = right.iter().map(with_wrong_byte).collect();
    let verdict = proved(&[right.clone(), wrong.clone()].concat());
    assert_eq!(verdict.status, Some(1), "{}", verdict.output);
    for check in &right {
        assert!(!verdict.refuses(&check.name), "{} is refused\n{}", check.name, verdict.output);
    }
    for check in &wrong {
        assert!(verdict.refuses(&check.name), "{} is not refused\n{}", check.name, verdict.output);
    }
    let (passed, refused) = (right.len(), wrong.len());
    say(format!("a_wrong_expectation_is_refused: {} checks, {refused} of them wrong", passed + refused));
}

/// The literal of all 256 bytes, read by the prover, against their numbers.
#[test]
fn literals_give_their_bytes() {
    let numbers: String = (0..256).map(|number| format!("{number} ∷ ")).collect();
    let check = Check {
        name: "literal".to_string(),
        case: "all bytes".to_string(),
        computed: format!("{numbers}[]"),
        expected: (0..=255).collect(),
    };
    let verdict = proved(&[check]);
    assert!(verdict.is_proved(), "{}", verdict.output);
    say("literals_give_their_bytes: 1 check".to_string());
}
