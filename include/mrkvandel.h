/*
 * Mrkvandel: the proved reader, finder and rewriter of troff intermediate output, the judging of a stream and the first name of a
 * glyph, as C functions.
 *
 * The library is target/lib/libmrkvandel.a, for x86-64 and the System V calling convention. The script ./build makes it from five
 * static libraries, one for each function, which `rt lib` proves and writes. Proved is what the functions answer and leave in
 * the rows and the buffer; the compiler behind the proof, the way into C and this header are tested (routines/). The source of these
 * declarations is the src/lib.rt of crates/capi_read, capi_find, capi_respell, capi_judge and capi_first_name, for the answers that
 * of crates/capi_answers, and for records, entries and colours that of crates/rules. What the answers mean is said in full by the
 * definitions in crates/rules/specs.
 *
 * Of every function here:
 *   - An input, a row or the rewriter's buffer, which is a row of bytes, crosses as a pointer and the number of its items (bytes,
 *     records, entries or hits).
 *   - Each pointer must be valid for that many items and aligned for them: to read for an input, to read and write for a row.
 *     None may be null, not even where the number is 0.
 *   - No row may overlap the other row or an input: so a stream cannot be rewritten in its place. The inputs may overlap each
 *     other. They are not changed.
 *   - Nothing else is asked of a caller: any bytes and any lengths will do, and the rows may hold anything.
 *   - Nothing is allocated and nothing is kept between calls. A call needs up to 100 KiB of the stack.
 *
 * For C11 and C++11, and later.
 */
#ifndef MRKVANDEL_H
#define MRKVANDEL_H

#include <stddef.h>
#include <stdint.h>

#ifdef __cplusplus
#define MRKVANDEL_ASSERT(holds, message) static_assert(holds, message)
extern "C" {
#else
#define MRKVANDEL_ASSERT(holds, message) _Static_assert(holds, message)
#endif

/* The most bytes of a stream, of a width list, of a family list and of a query; more is refused as 1. */
#define MRKVANDEL_STREAM_LIMIT 16777216
#define MRKVANDEL_LIST_LIMIT 65536
#define MRKVANDEL_FAMILIES_LIMIT 65536
#define MRKVANDEL_QUERY_LIMIT 8192

/* The most bytes of a spelling; more is refused as 13. */
#define MRKVANDEL_SPELLING_LIMIT 16777216

/*
 * Refusal numbers. The offset of a refusal is that of the first byte of the command at fault, counted from 0 in the stream,
 * unless it is said otherwise. A refusal with a smaller number comes first at one command, but 16 stands between 6 and 7; in all, 1
 * comes first, then 2, then 14, then 12, then the first command at fault, and 13 last, when nothing else is against the inputs. The reader
 * and the rewriter, which have neither family list nor query, answer 1 to 11, 13 or 16, the finder 1 to 14 or 16, and judging, which is
 * lent no room, 1 to 11 or 16. The first name of a glyph is never refused.
 */
enum {
    /* no refusal */
    MRKVANDEL_ACCEPTED = 0,
    /* the stream is over 16,777,216 bytes, the width list or the family list over 65,536 or the query over 8,192; offset 0 */
    MRKVANDEL_TOO_LONG = 1,
    /* the width list is wrong; offset in the list: the start of its first wrong line (one without a newline is wrong, and so is one
       with a barred byte in its name, see 16), or its length where a line is missing at the end */
    MRKVANDEL_WIDTH_LIST = 2,
    /* unknown command, `D`, `DF`, `m` or `x` letter, or none */
    MRKVANDEL_UNKNOWN = 3,
    /* an argument is missing or malformed; none or an odd number of them for `Dp`, `DP`, `D~` */
    MRKVANDEL_MALFORMED = 4,
    /* other bytes stand before the line break of `D` or `x` */
    MRKVANDEL_SURPLUS = 5,
    /* a number, count, name or text is outside its limit; offset: the first byte of the first argument outside its limit. Dummies and
       the numbers of `n` are arguments, too; of `Dp`, `DP` and `D~` the 65th and all behind it are outside; a text begins right
       behind the spacer that follows the `x` word, be it with the newline of an empty line */
    MRKVANDEL_OUTSIDE_LIMIT = 6,
    /* the prologue is out of order, or a prologue command stands later; a motion, glyph, `N` or any `D` before the first `p`; a byte
       of anything after `x s` (offset: that byte; nothing else is judged there) */
    MRKVANDEL_OUT_OF_ORDER = 7,
    /* `f` to an unmounted position; a glyph or `N` without current font and size */
    MRKVANDEL_NO_FONT = 8,
    /* no width for a byte of `t` or `u` */
    MRKVANDEL_NO_WIDTH = 9,
    /* h or v beyond 99,999,999 either way after a command (`Dt` moves too, by its number across), or after any glyph of a word (`Dp`
       and the like: at the end only) */
    MRKVANDEL_OUT_OF_REACH = 10,
    /* no `x s`; offset: the length of the stream */
    MRKVANDEL_NO_STOP = 11,
    /* the query is wrong; offset in the query: the start of its first wrong line (one without a newline is wrong, and so is one with a
       barred byte in its name, see 16; a last gap line is that line), 0 if it is empty */
    MRKVANDEL_QUERY = 12,
    /* a row or the buffer is too small, or the spelling is over 16,777,216 bytes; offset 0 */
    MRKVANDEL_NO_ROOM = 13,
    /* the family list is wrong; offset in the list: the start of its first wrong line (one without a newline is wrong, and so is one
       with a barred byte in its name, see 16), or its length where a `same` line is missing at the end; see the finder */
    MRKVANDEL_FAMILY_LIST = 14,
    /* a barred byte, 0 to 8, 11 to 31 or 127, in a name or a glyph: of `c`, `C`, two digits, `x T`, `x F` and `x f`, and in a `t` or `u`
       word. The text of `x X`, the rest of an `x` word and comments may hold any byte */
    MRKVANDEL_BARRED_BYTE = 16
};

/* A glyph record: 40 bytes. */
typedef struct mrkvandel_record {
    uint32_t ordinal; /* which page it is on, counted: 1 for the first `p` */
    int32_t page;     /* the number of that page, as its `p` gives it */
    int32_t h;        /* position before any advance, -99,999,999 to 99,999,999: to the right */
    int32_t v;        /* and downwards */
    uint32_t font;    /* current font position, 0 to 255 */
    uint32_t size;    /* current size, 1 to 99,999,999 */
    uint32_t place;   /* where the glyph's name begins in the stream, counted from 0; 0 for a glyph set by `N` */
    uint32_t len;     /* how many bytes its name has, at most 64; 0 for a glyph set by `N` */
    uint32_t index;   /* the number of `N`; 0 for any other glyph */
    uint32_t gap;     /* gap mark: 1 on the first record of a page, and where a `w`, `n` or negative `N` stands between this
                         record and the one before it; else 0 */
} mrkvandel_record;

/* An entry for a `D` or `x` command: 32 bytes. */
typedef struct mrkvandel_entry {
    uint32_t command; /* the byte `D` or `x` */
    uint32_t letter;  /* the letter of `D`, the first byte of the word of `x`; a spacer may stand before it */
    uint32_t scheme;  /* of `DF` its third letter, one of `c`, `d`, `g`, `k`, `r`; else 0 */
    uint32_t ordinal; /* which page it is on, counted: 1 for the first `p`, 0 before it */
    uint32_t place;   /* where the command begins in the stream, counted from 0 */
    uint32_t len;     /* how many bytes it has, to its last argument byte; without an argument to the end of its letters or word;
                         of `x X` to the end of its last line, the newline aside */
    int32_t h;        /* of `D` and `x X` the position before it; of any other `x` 0 */
    int32_t v;
} mrkvandel_entry;

/* A colour: 20 bytes. */
typedef struct mrkvandel_colour {
    uint32_t scheme;   /* the letter of its scheme, a byte: `c`, `d` (default), `g`, `k` or `r` */
    uint32_t parts[4]; /* its components in their order, each 0 to 65,536; unused ones are 0 */
} mrkvandel_colour;

/* The reader's answer: 80 bytes. */
typedef struct mrkvandel_read_result {
    size_t offset;           /* of a refusal, see above; 0 where nothing is refused */
    size_t records;          /* how many records were written; 0 in a refusal */
    size_t entries;          /* how many entries were written; 0 in a refusal */
    uint32_t refusal;        /* 0 where nothing is refused, else the number of the refusal: 1 to 11, 13 or 16 */
    uint32_t pages;          /* how many `p` the stream has; 0 in a refusal */
    int32_t h;               /* the position behind the last command; 0 in a refusal */
    int32_t v;
    mrkvandel_colour glyph;  /* the glyph colour behind the last command; the default scheme in a refusal */
    mrkvandel_colour fill;   /* the fill colour, likewise */
} mrkvandel_read_result;

/* The finder's answer: 32 bytes, the last four of them without meaning. */
typedef struct mrkvandel_find_result {
    size_t offset;    /* of a refusal, see above; 0 where nothing is refused */
    size_t records;   /* how many records were written; 0 in a refusal */
    size_t hits;      /* how many hits were written; 0 in a refusal */
    uint32_t refusal; /* 0 where nothing is refused, else the number of the refusal: 1 to 14 or 16 */
} mrkvandel_find_result;

/* The rewriter's answer: 24 bytes, the last four of them without meaning. */
typedef struct mrkvandel_respell_result {
    size_t offset;    /* of a refusal, see above; 0 where nothing is refused */
    size_t len;       /* how many bytes the spelling has, all of them written; 0 in a refusal */
    uint32_t refusal; /* 0 where nothing is refused, else the number of the refusal: 1 to 11, 13 or 16 */
} mrkvandel_respell_result;

/* What judging answers: 40 bytes. */
typedef struct mrkvandel_judge_result {
    size_t offset;    /* of a refusal, see above; 0 where nothing is refused */
    size_t records;   /* how many records the stream has; 0 in a refusal */
    size_t entries;   /* how many entries it has; 0 in a refusal */
    size_t spelling;  /* how many bytes its spelling has, MRKVANDEL_SPELLING_LIMIT + 1 where they are over that limit; 0 in a
                         refusal */
    uint32_t refusal; /* 0 where nothing is refused, else the number of the refusal: 1 to 11 or 16 */
    uint32_t pages;   /* how many `p` the stream has; 0 in a refusal */
} mrkvandel_judge_result;

/* Where the first name of a glyph stands. */
enum {
    /* nowhere: it is the empty part */
    MRKVANDEL_NO_NAME = 0,
    /* in the stream: it is the glyph's own name, which is in no family, or the family list is wrong or too long */
    MRKVANDEL_IN_STREAM = 1,
    /* in the family list: it is the first name of the family that the glyph's name is in */
    MRKVANDEL_IN_FAMILIES = 2
};

/* The first name of a glyph, a part of the stream or of the family list: 24 bytes, the last four of them without meaning. */
typedef struct mrkvandel_first_name_result {
    size_t place;    /* where the name begins, in the stream or in the family list, counted from 0; 0 for the empty part */
    size_t len;      /* how many bytes it has; 0 for the empty part */
    uint32_t source; /* where it stands: one of the three numbers above */
} mrkvandel_first_name_result;

MRKVANDEL_ASSERT(sizeof(size_t) == 8, "the library is for x86-64");
MRKVANDEL_ASSERT(sizeof(mrkvandel_record) == 40, "a record has 40 bytes");
MRKVANDEL_ASSERT(sizeof(mrkvandel_entry) == 32, "an entry has 32 bytes");
MRKVANDEL_ASSERT(sizeof(mrkvandel_colour) == 20, "a colour has 20 bytes");
MRKVANDEL_ASSERT(sizeof(mrkvandel_read_result) == 80, "the reader's answer has 80 bytes");
MRKVANDEL_ASSERT(sizeof(mrkvandel_find_result) == 32, "the finder's answer has 32 bytes");
MRKVANDEL_ASSERT(sizeof(mrkvandel_respell_result) == 24, "the rewriter's answer has 24 bytes");
MRKVANDEL_ASSERT(sizeof(mrkvandel_judge_result) == 40, "the answer of judging has 40 bytes");
MRKVANDEL_ASSERT(sizeof(mrkvandel_first_name_result) == 24, "the first name has 24 bytes");

/*
 * Reads a stream with its width list. `records` gets one record for each glyph, `entries` one entry for each `D` or `x` command,
 * both in the order of the stream.
 *
 * Accepted (refusal 0): the first `records` records and the first `entries` entries of the rows, as the answer counts them, are
 * written; what lies behind them in the rows is unchanged. A row that is exactly full is large enough.
 * Refused: both rows are unchanged, every byte of them.
 *
 * A stream of n bytes has at most n records and n / 2 entries: each record has a byte of its own, each entry two. (Tested, not proved.)
 */
mrkvandel_read_result mrkvandel_read(const uint8_t *stream, size_t stream_len, const uint8_t *widths, size_t widths_len,
                                     mrkvandel_record *records, size_t records_len, mrkvandel_entry *entries, size_t entries_len);

/*
 * Finds a run of glyphs in a stream with its width list, by a family list. `records` gets one record for each glyph, as the reader
 * gives it; `hits` gets the number of each record at which the query occurs, counted from 0, each once and in rising order.
 *
 * A family is a set of names that stand for one letter, such as `'e`, `u0065_0301` and the byte \xE9. A family list has, for each
 * family, a line `name=NAME` with its first name and behind it 1 to 7 lines `same=NAME` with the others, each ended by a newline: at
 * most 256 families, no name twice in the list. It is judged behind the width list (2) and before the query (12), and is 14 where it
 * is wrong, 1 where it has over 65,536 bytes. The empty list (length 0) is sound and has no families: then names match only themselves.
 *
 * A query has lines `glyph=NAME` and `gap=any`, each ended by a newline: 1 to 64 glyph lines, the first and the last line a glyph
 * line, never two gap lines together. In a family list and in a query a NAME has 1 to 64 bytes, none of them a space, a tab, a newline or barred (16).
 * A query occurs at record i where the records i, i + 1, ... are there for all its glyph lines, in their order, and
 *   - have the same `ordinal`: a run does not cross a `p`, even if both pages carry one number;
 *   - have the names of the lines: each the same bytes as the line's, or in one family with it. A glyph set by `N`, which has no name,
 *     is in no run;
 *   - have, each after the first, `gap` 1 where a gap line stands before its glyph line, else 0; the first may have either.
 * How the records are placed, their fonts and sizes play no part. Occurrences may overlap.
 *
 * Accepted (refusal 0): the first `records` records and the first `hits` hits of the rows, as the answer counts them, are written;
 * what lies behind them in the rows is unchanged. A row that is exactly full is large enough. There may be no hits.
 * Refused: both rows are unchanged, every byte of them.
 *
 * There are at most as many hits as records, and a stream of n bytes has at most n records. (The latter tested, not proved.)
 */
mrkvandel_find_result mrkvandel_find(const uint8_t *stream, size_t stream_len, const uint8_t *widths, size_t widths_len,
                                     const uint8_t *families, size_t families_len, const uint8_t *query, size_t query_len,
                                     mrkvandel_record *records, size_t records_len, uint32_t *hits, size_t hits_len);

/*
 * Rewrites a stream, with its width list, in the house spelling. `out` gets the spelling:
 *   - one command a line, each line ended by a newline; one space before each argument, integers in their shortest form; the
 *     letters of `m`, `D` and `DF` together; `x`, a space and the first letter of its word alone;
 *   - every command in its order, repeats too, but no motion; comments and dummy arguments go, `n` becomes `n 0 0`;
 *   - each glyph by itself, those of `t`, `u` and two digits too: `c` and its byte, or `C` and its name where that has more bytes;
 *   - before a glyph, `N`, any `D`, `x X` or `x s` a line `H` and then a line `V` with the position there, each only where a reader
 *     of the spelling so far is at another one;
 *   - of `x X` a space and its first line, or neither where that is empty; then its `+` lines as they are.
 *
 * Accepted (refusal 0): the first `len` bytes of the buffer, as the answer counts them, are the spelling; what lies behind them in
 * the buffer is unchanged. A buffer that is exactly full is large enough.
 * Refused: the buffer is unchanged, every byte of it. 13 comes also where the spelling is over 16,777,216 bytes, however large the
 * buffer is.
 *
 * With the same width list the reader accepts the spelling and gives the same glyphs, drawings, controls, pages, end position and
 * colours as of the stream; and rewriting it gives it back, byte for byte. (Both proved.)
 *
 * A refusal, of an empty buffer too, does not tell how long the spelling would be; `mrkvandel_judge` does. If any buffer is large
 * enough, one of 16,777,216 bytes is; and one of 16 * n bytes for a stream of n bytes: a byte of a word gives at most 16 bytes of
 * spelling, such as the lines `H -99999999` and `c a`, and other commands give less for each of theirs. (The latter tested, not
 * proved.)
 */
mrkvandel_respell_result mrkvandel_respell(const uint8_t *stream, size_t stream_len, const uint8_t *widths, size_t widths_len,
                                           uint8_t *out, size_t out_len);

/*
 * Judges a stream with its width list, room aside: whether the reader accepts it where there is room enough, and the rewriter too
 * unless the spelling is over its limit; and how much room that is.
 *
 * Accepted (refusal 0): the reader accepts it with a row of `records` records and one of `entries` entries, the finder with a row of
 * `records` records and one of as many hits (where nothing is against the family list and the query), the rewriter with a buffer of
 * `spelling` bytes, or, where `spelling` is MRKVANDEL_SPELLING_LIMIT + 1, with none: then the spelling is over its limit, and the
 * rewriter refuses it as 13. With less room the reader and the rewriter refuse it as 13. (All proved: `Judge` and `NoRoom` in
 * crates/demands, `Judged` in crates/laws_answers.)
 * Refused: the reader and the rewriter refuse it with the same number and offset, whatever the room. It is 1 to 11 or 16, never 12,
 * 13 or 14.
 */
mrkvandel_judge_result mrkvandel_judge(const uint8_t *stream, size_t stream_len, const uint8_t *widths, size_t widths_len);

/*
 * The first name of a glyph, for a record with this `place` and `len`: the name by which a screen shows the letter, whichever of its
 * names the stream has. Nothing is copied: the answer is a part of the stream or of the family list.
 *   - Where the name, the `len` bytes at `place` in the stream, is in a family: that family's first name, as it stands in the family
 *     list (MRKVANDEL_IN_FAMILIES), also where the name is that first name itself.
 *   - Where it is in no family: the name itself, as it stands in the stream (MRKVANDEL_IN_STREAM).
 *   - Where `len` is 0, as for a glyph set by `N`, or the name does not lie whole in the stream: the empty part (MRKVANDEL_NO_NAME).
 * A family list that is wrong, or over 65,536 bytes, counts here as an empty one; nothing is refused. The stream need not be one
 * that the reader accepts: only the bytes at `place` are looked at. The whole list is looked through at each call, so ask once for each
 * different name.
 */
mrkvandel_first_name_result mrkvandel_first_name(const uint8_t *stream, size_t stream_len, const uint8_t *families,
                                                 size_t families_len, size_t place, size_t len);

#ifdef __cplusplus
}
#endif
#undef MRKVANDEL_ASSERT

#endif
