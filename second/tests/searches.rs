//! The generated searches: they tell a wrong finder from a right one, and every refusal comes.

mod naive;

use naive::{families_of, has, names_match, Family};
use second::find::{read_query, QueryGlyph};
use second::generate::search::search;
use second::{find, Record, Rooms};

const SEEDS: u64 = 20_000;

/// The parts of 01's rule. A wrong part in the place of a right one makes a wrong finder.
#[derive(Clone, Copy)]
struct Rule {
    /// whether a record is on the page of the run's first one
    page: fn(&Record, &Record) -> bool,
    /// whether a name, of that record, is the name wanted, or in one family with it
    name: fn(&[Family], &[u8], &Record, &[u8]) -> bool,
    /// whether the record of the k-th glyph has its gap mark as the query has gap lines
    gap: fn(usize, &Record, bool) -> bool,
    /// the hits that are listed, of those found by a query of so many glyphs
    list: fn(Vec<usize>, usize, &[Record]) -> Vec<usize>,
}

const RIGHT: Rule = Rule {
    page: |first, record| record.ordinal == first.ordinal,
    name: |families, name, _, wanted| names_match(families, name, wanted),
    gap: |k, record, wanted| k == 0 || record.gap == wanted,
    list: |hits, _, _| hits,
};

const WRONG: [(&str, Rule); 29] = [
    ("page numbers for ordinals", Rule { page: |first, record| record.page == first.page, ..RIGHT }),
    ("no pages", Rule { page: |_, _| true, ..RIGHT }),
    ("gaps are not looked at", Rule { gap: |_, _, _| true, ..RIGHT }),
    (
        "a gap may be there unasked",
        Rule { gap: |k, record, wanted| k == 0 || record.gap || !wanted, ..RIGHT },
    ),
    ("a gap may be missing", Rule { gap: |k, record, wanted| k == 0 || wanted || !record.gap, ..RIGHT }),
    ("the first gap is looked at", Rule { gap: |_, record, wanted| record.gap == wanted, ..RIGHT }),
    ("the first has a gap", Rule { gap: |k, record, wanted| record.gap == (wanted || k == 0), ..RIGHT }),
    (
        "a longer name",
        Rule {
            name: |families, name, _, wanted| name.starts_with(wanted) || names_match(families, name, wanted),
            ..RIGHT
        },
    ),
    (
        "a shorter name",
        Rule {
            name: |families, name, _, wanted| {
                !name.is_empty() && wanted.starts_with(name) || names_match(families, name, wanted)
            },
            ..RIGHT
        },
    ),
    (
        "the first byte",
        Rule {
            name: |families, name, _, wanted| {
                name.first() == wanted.first() || names_match(families, name, wanted)
            },
            ..RIGHT
        },
    ),
    (
        "`N` is any glyph",
        Rule {
            name: |families, name, _, wanted| name.is_empty() || names_match(families, name, wanted),
            ..RIGHT
        },
    ),
    (
        "`N` is a byte",
        Rule {
            name: |families, name, record, wanted| {
                names_match(families, name, wanted) || is_index(record, wanted)
            },
            ..RIGHT
        },
    ),
    ("no families", Rule { name: |_, name, _, wanted| name == wanted, ..RIGHT }),
    ("families alone", Rule { name: |families, name, _, wanted| in_one(families, name, wanted), ..RIGHT }),
    ("any families", Rule { name: |families, name, _, wanted| in_any(families, name, wanted), ..RIGHT }),
    (
        "first names are asked",
        Rule {
            name: |families, name, _, wanted| {
                name == wanted || families.iter().any(|family| family[0] == wanted && has(family, name))
            },
            ..RIGHT
        },
    ),
    (
        "first names are found",
        Rule {
            name: |families, name, _, wanted| {
                name == wanted || families.iter().any(|family| family[0] == name && has(family, wanted))
            },
            ..RIGHT
        },
    ),
    (
        "`same=` lines alone",
        Rule {
            name: |families, name, _, wanted| {
                name == wanted
                    || families.iter().any(|family| has(&family[1..], name) && has(&family[1..], wanted))
            },
            ..RIGHT
        },
    ),
    (
        "not the last of a family",
        Rule {
            name: |families, name, _, wanted| {
                name == wanted
                    || families
                        .iter()
                        .any(|family| in_one(&[family[..family.len() - 1].to_vec()], name, wanted))
            },
            ..RIGHT
        },
    ),
    (
        "the first family",
        Rule {
            name: |families, name, _, wanted| names_match(&families[..families.len().min(1)], name, wanted),
            ..RIGHT
        },
    ),
    (
        "not the last family",
        Rule {
            name: |families, name, _, wanted| {
                names_match(&families[..families.len().saturating_sub(1)], name, wanted)
            },
            ..RIGHT
        },
    ),
    (
        "not names of one byte",
        Rule {
            name: |families, name, _, wanted| {
                name == wanted || name.len() > 1 && names_match(families, name, wanted)
            },
            ..RIGHT
        },
    ),
    (
        "beginnings of members",
        Rule {
            name: |families, name, _, wanted| {
                names_match(families, name, wanted) || is_beginning(families, name, wanted)
            },
            ..RIGHT
        },
    ),
    (
        "one family with the next",
        Rule {
            name: |families, name, _, wanted| {
                name == wanted
                    || families.chunks(2).any(|two| has(&two.concat(), name) && has(&two.concat(), wanted))
            },
            ..RIGHT
        },
    ),
    (
        "`N` is a member by its digits",
        Rule {
            name: |families, name, record, wanted| {
                names_match(families, name, wanted)
                    || name.is_empty() && names_match(families, record.index.to_string().as_bytes(), wanted)
            },
            ..RIGHT
        },
    ),
    ("past a hit", Rule { list: |hits, count, _| parted(&hits, count), ..RIGHT }),
    ("the first hit", Rule { list: |hits, _, _| hits[..hits.len().min(1)].to_vec(), ..RIGHT }),
    ("the first page", Rule { list: |hits, _, records| on_first_page(&hits, records), ..RIGHT }),
    (
        "not the last record",
        Rule { list: |hits, count, records| before_last(&hits, count, records), ..RIGHT },
    ),
];

fn in_one(families: &[Family], name: &[u8], wanted: &[u8]) -> bool {
    families.iter().any(|family| has(family, name) && has(family, wanted))
}

/// Equal, or each in a family.
fn in_any(families: &[Family], name: &[u8], wanted: &[u8]) -> bool {
    let is_member = |name| families.iter().any(|family| has(family, name));
    name == wanted || is_member(name) && is_member(wanted)
}

/// Whether a name is the beginning of a member of the family wanted.
fn is_beginning(families: &[Family], name: &[u8], wanted: &[u8]) -> bool {
    let begins = |family: &Family| family.iter().any(|member| member.starts_with(name));
    !name.is_empty() && families.iter().any(|family| has(family, wanted) && begins(family))
}

fn is_index(record: &Record, wanted: &[u8]) -> bool {
    record.length == 0 && wanted.len() == 1 && record.index == u32::from(wanted[0])
}

fn parted(hits: &[usize], count: usize) -> Vec<usize> {
    let mut listed: Vec<usize> = Vec::new();
    for &hit in hits {
        if listed.last().is_none_or(|last| hit >= last + count) {
            listed.push(hit);
        }
    }
    listed
}

fn on_first_page(hits: &[usize], records: &[Record]) -> Vec<usize> {
    hits.iter().copied().filter(|&hit| records[hit].ordinal == 1).collect()
}

fn before_last(hits: &[usize], count: usize, records: &[Record]) -> Vec<usize> {
    hits.iter().copied().filter(|&hit| hit + count < records.len()).collect()
}

fn hits_by(
    rule: Rule,
    stream: &[u8],
    records: &[Record],
    families: &[Family],
    glyphs: &[QueryGlyph],
) -> Vec<usize> {
    let occurs = |run: &[Record]| {
        run.iter().zip(glyphs).enumerate().all(|(k, (record, glyph))| {
            (rule.page)(&run[0], record)
                && (rule.name)(families, record.name(stream), record, &glyph.name)
                && (rule.gap)(k, record, glyph.gap)
        })
    };
    let runs = records.windows(glyphs.len()).enumerate();
    let hits = runs.filter(|(_, run)| occurs(run)).map(|(number, _)| number).collect();
    (rule.list)(hits, glyphs.len(), records)
}

/// Each wrong rule lists other hits than the right one in at least a hundred searches.
#[test]
fn wrong_finders_are_told_apart() {
    let mut told_apart = [0; WRONG.len()];
    for seed in 0..SEEDS {
        let case = search(seed);
        let answer = find(&case.stream, &case.list, &case.families, &case.query, Rooms::default());
        let Ok(found) = answer else { continue };
        let (families, glyphs) = (families_of(&case.families), read_query(&case.query).unwrap());
        let hits = |rule| hits_by(rule, &case.stream, &found.records, &families, &glyphs);
        assert_eq!(hits(RIGHT), found.hits, "seed {seed}");
        for (place, (_, rule)) in WRONG.iter().enumerate() {
            told_apart[place] += u32::from(hits(*rule) != found.hits);
        }
    }
    for ((name, _), count) in WRONG.iter().zip(told_apart) {
        println!("{name}: {count}");
        assert!(count >= 100, "{name}: told apart {count} times");
    }
}

#[test]
fn a_search_depends_on_its_seed_alone() {
    for seed in 0..200 {
        assert_eq!(search(seed), search(seed), "seed {seed}");
    }
    assert_ne!(search(1).query, search(2).query);
}

/// More than half are accepted, and each refusal but 13, for which the room is to be chosen, comes.
#[test]
fn every_refusal_comes() {
    let mut counts = [0; 17];
    for seed in 0..SEEDS {
        let case = search(seed);
        let refusal = find(&case.stream, &case.list, &case.families, &case.query, Rooms::default()).err();
        counts[refusal.map_or(0, |refusal| usize::from(refusal.number))] += 1;
    }
    println!("accepted {}, refused 1 to 16: {:?}", counts[0], &counts[1..]);
    assert!(counts[0] * 2 >= SEEDS, "{} are accepted", counts[0]);
    assert!((1..=12).chain([14, 16]).all(|number| counts[number] >= 10), "{counts:?}");
}
