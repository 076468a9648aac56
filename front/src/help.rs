//! What `--help` and `--version` print.

use crate::args::{Command, Page};
use crate::reasons::REASONS;

pub const VERSION: &str = concat!("mrkvandel ", env!("CARGO_PKG_VERSION"), "\n");

const OVERVIEW: &str = "\
mrkvandel reads, rewrites, searches and judges streams of troff intermediate output.

usage: mrkvandel glyphs  -w WIDTHS [-f FAMILIES] [--json] STREAM...
       mrkvandel respell -w WIDTHS [--json] STREAM...
       mrkvandel find    -w WIDTHS [-f FAMILIES] (-q QUERY | -e TEXT) [--json] STREAM...
       mrkvandel check   -w WIDTHS [--json] STREAM...
       mrkvandel letters
       mrkvandel --help | --version | COMMAND --help

";

const GLYPHS: &str = "\
mrkvandel glyphs -w WIDTHS [-f FAMILIES] [--json] STREAM...
  prints a line for each glyph, for each drawing and control, and for the end:
    glyph ORDINAL PAGE H V FONT SIZE GAP INDEX PLACE LENGTH NAME
    entry LETTERS ORDINAL PLACE LENGTH H V
    end RECORDS ENTRIES PAGES H V GSCHEME G1 G2 G3 G4 FSCHEME F1 F2 F3 F4
  with --json:
    {\"type\":\"glyph\",\"file\",\"record\",\"ordinal\",\"page\",\"h\",\"v\",\"font\",\"size\",\"gap\",
     \"index\",\"place\",\"length\",\"name\"}
    {\"type\":\"entry\",\"file\",\"letters\",\"ordinal\",\"place\",\"length\",\"h\",\"v\"}
    {\"type\":\"end\",\"file\",\"records\",\"entries\",\"pages\",\"h\",\"v\",
     \"glyph_colour\":{\"scheme\",\"parts\"},\"fill_colour\":{\"scheme\",\"parts\"}}
  -f, --families FAMILIES  a family list: NAME is the first name of the family
    that the glyph's name is in; PLACE and LENGTH stay those of its own name. A
    wrong list counts as an empty one here, which is said on standard error.

";

const RESPELL: &str = "\
mrkvandel respell -w WIDTHS [--json] STREAM...
  prints the house spelling, byte for byte. With --json:
    {\"type\":\"spelling\",\"file\",\"length\",\"text\"}

";

const FIND: &str = "\
mrkvandel find -w WIDTHS [-f FAMILIES] (-q QUERY | -e TEXT) [--json] STREAM...
  prints `hit NUMBER` for each record at which the query occurs, counted from 0,
  then `found RECORDS HITS`. With --json:
    {\"type\":\"hit\",\"file\",\"record\",\"ordinal\",\"page\",\"h\",\"v\"}
    {\"type\":\"found\",\"file\",\"records\",\"hits\"}
  -f, --families FAMILIES  a file with the lines `name=NAME`, each followed by 1 to 7
                     `same=NAME`: names of one letter, which match each other
  -q, --query QUERY  a file with the lines `glyph=NAME` and `gap=any`
  -e, --text TEXT    a text that is turned into such lines:
                       each ASCII byte is a glyph of that name
                       a letter over 127, in UTF-8, is a glyph under all its names
                       a run of blanks is one gap
                       \\[NAME] is a glyph by its name, as in groff
                       \\\\ is a backslash, \\xHH the glyph whose name is the byte HH
                       in \\[...] stand \\], \\\\ and \\xHH
    The names of a letter, such as those of e acute ('e, u0065_0301, u00E9 and the
    byte E9), are those of the one family that has any of them: in FAMILIES, or
    without -f in the program's own list (`mrkvandel letters`), which is said on
    standard error. Where FAMILIES does not tell them, the text is not searched for.
    Ligatures and hyphens have names of their own.
    examples: -e 'right of way'   -e 'caf\u{e9}'       -e \"caf\\['e]\"   -e 'caf\\xE9'
              -e '\\[fi]eld'       -e 'cross\\[hy]roads'

";

const CHECK: &str = "\
mrkvandel check -w WIDTHS [--json] STREAM...
  prints a table, a row for each file as soon as it is judged. Columns, parted by
  blanks: verdict (accepted, refused, unreadable), pages, records, entries, number
  and offset of the refusal, its line, file; then, parted by a tab, the reason.
  `-` stands in a column that has nothing to say. The totals go to standard error.
  With --json, for an accepted stream (spelling is the length of its house
  spelling, null over 16,777,216):
    {\"type\":\"check\",\"file\",\"pages\",\"records\",\"entries\",\"spelling\"}

";

const LETTERS: &str = "\
mrkvandel letters
  prints the program's own family list: the letters of Latin-1 and Latin Extended-A
  and some others, each with the name that groff gives it, its uXXXX and uXXXX_XXXX
  names and its byte in Latin-1. A list for -f may begin as a copy of it.

";

const OPTIONS: &str = "\
options:
  -w, --widths WIDTHS  the width list of the streams' fonts
      --json           one JSON object a line; each has \"type\" and \"file\"
  -h, --help           this text, or that of a command
  -V, --version        the version
  --                   ends the options
  A STREAM, WIDTHS, FAMILIES or QUERY that is `-` is standard input, for one of them.
  With several streams a line `==> NAME <==` stands before each answer in text.
  In JSON a byte of a name or spelling is the character of its number, 0 to 255.

";

const REFUSALS: &str = "\
A refusal is the line `refused NUMBER OFFSET` on standard output, and a line for
people on standard error. With --json it is
    {\"type\":\"refused\",\"file\",\"number\",\"offset\",\"line\",\"column\",\"about\",\"reason\"}
where \"about\" is stream, widths, families or query. A file that cannot be read, or
has not enough memory, is
    {\"type\":\"error\",\"file\",\"about\",\"message\"}
The numbers:
";

const STATUS: &str = "
exit status:
  0  everything was accepted (a query may occur nowhere)
  1  a stream, width list, family list or query was refused
  2  a usage error, a file that cannot be read, output that cannot be written,
     or not enough memory
";

/// A page of the help.
pub fn text(page: Page) -> String {
    let parts: &[&str] = match page {
        Page::Whole => &[OVERVIEW, GLYPHS, RESPELL, FIND, CHECK, LETTERS],
        Page::Of(Command::Glyphs) => &[GLYPHS],
        Page::Of(Command::Respell) => &[RESPELL],
        Page::Of(Command::Find) => &[FIND],
        Page::Of(Command::Check) => &[CHECK],
        Page::Letters => return LETTERS.to_string(),
    };
    let reasons: String = REASONS.iter().map(|(number, reason)| format!("{number:>4}  {reason}\n")).collect();
    [&parts.concat(), OPTIONS, REFUSALS, &reasons, STATUS].concat()
}
