/* Prints how a C compiler lays out what include/mrkvandel.h declares; also to be compiled as C++. */
#include <stdio.h>
#include <string.h>

#include "mrkvandel.h"

/* NAME SIZE */
#define SIZE(type) printf(#type " %zu\n", sizeof(type))

/* NAME FIELD OFFSET SIZE KIND */
#define FIELD(type, field, kind) \
    printf(#type " " #field " %zu %zu %s\n", offsetof(type, field), sizeof(((type *)0)->field), kind)

/* a number with all its bits set is below 0 where it is signed */
#define NUMBER(type, field) \
    do { \
        type ones; \
        memset(&ones, 255, sizeof ones); \
        FIELD(type, field, ones.field < 0 ? "signed" : "unsigned"); \
    } while (0)

#define VALUE(name) printf(#name " %ld\n", (long)(name))

static void print_record(void) {
    SIZE(mrkvandel_record);
    NUMBER(mrkvandel_record, ordinal);
    NUMBER(mrkvandel_record, page);
    NUMBER(mrkvandel_record, h);
    NUMBER(mrkvandel_record, v);
    NUMBER(mrkvandel_record, font);
    NUMBER(mrkvandel_record, size);
    NUMBER(mrkvandel_record, place);
    NUMBER(mrkvandel_record, len);
    NUMBER(mrkvandel_record, index);
    NUMBER(mrkvandel_record, gap);
}

static void print_entry(void) {
    SIZE(mrkvandel_entry);
    NUMBER(mrkvandel_entry, command);
    NUMBER(mrkvandel_entry, letter);
    NUMBER(mrkvandel_entry, scheme);
    NUMBER(mrkvandel_entry, ordinal);
    NUMBER(mrkvandel_entry, place);
    NUMBER(mrkvandel_entry, len);
    NUMBER(mrkvandel_entry, h);
    NUMBER(mrkvandel_entry, v);
}

static void print_colour_and_answers(void) {
    SIZE(mrkvandel_colour);
    NUMBER(mrkvandel_colour, scheme);
    FIELD(mrkvandel_colour, parts, "parts");
    SIZE(mrkvandel_read_result);
    NUMBER(mrkvandel_read_result, offset);
    NUMBER(mrkvandel_read_result, records);
    NUMBER(mrkvandel_read_result, entries);
    NUMBER(mrkvandel_read_result, refusal);
    NUMBER(mrkvandel_read_result, pages);
    NUMBER(mrkvandel_read_result, h);
    NUMBER(mrkvandel_read_result, v);
    FIELD(mrkvandel_read_result, glyph, "colour");
    FIELD(mrkvandel_read_result, fill, "colour");
    SIZE(mrkvandel_find_result);
    NUMBER(mrkvandel_find_result, offset);
    NUMBER(mrkvandel_find_result, records);
    NUMBER(mrkvandel_find_result, hits);
    NUMBER(mrkvandel_find_result, refusal);
    SIZE(mrkvandel_respell_result);
    NUMBER(mrkvandel_respell_result, offset);
    NUMBER(mrkvandel_respell_result, len);
    NUMBER(mrkvandel_respell_result, refusal);
    SIZE(mrkvandel_judge_result);
    NUMBER(mrkvandel_judge_result, offset);
    NUMBER(mrkvandel_judge_result, records);
    NUMBER(mrkvandel_judge_result, entries);
    NUMBER(mrkvandel_judge_result, spelling);
    NUMBER(mrkvandel_judge_result, refusal);
    NUMBER(mrkvandel_judge_result, pages);
    SIZE(mrkvandel_first_name_result);
    NUMBER(mrkvandel_first_name_result, place);
    NUMBER(mrkvandel_first_name_result, len);
    NUMBER(mrkvandel_first_name_result, source);
}

static void print_values(void) {
    VALUE(MRKVANDEL_ACCEPTED);
    VALUE(MRKVANDEL_TOO_LONG);
    VALUE(MRKVANDEL_WIDTH_LIST);
    VALUE(MRKVANDEL_UNKNOWN);
    VALUE(MRKVANDEL_MALFORMED);
    VALUE(MRKVANDEL_SURPLUS);
    VALUE(MRKVANDEL_OUTSIDE_LIMIT);
    VALUE(MRKVANDEL_OUT_OF_ORDER);
    VALUE(MRKVANDEL_NO_FONT);
    VALUE(MRKVANDEL_NO_WIDTH);
    VALUE(MRKVANDEL_OUT_OF_REACH);
    VALUE(MRKVANDEL_NO_STOP);
    VALUE(MRKVANDEL_QUERY);
    VALUE(MRKVANDEL_NO_ROOM);
    VALUE(MRKVANDEL_FAMILY_LIST);
    VALUE(MRKVANDEL_BARRED_BYTE);
    VALUE(MRKVANDEL_STREAM_LIMIT);
    VALUE(MRKVANDEL_LIST_LIMIT);
    VALUE(MRKVANDEL_FAMILIES_LIMIT);
    VALUE(MRKVANDEL_QUERY_LIMIT);
    VALUE(MRKVANDEL_SPELLING_LIMIT);
    VALUE(MRKVANDEL_NO_NAME);
    VALUE(MRKVANDEL_IN_STREAM);
    VALUE(MRKVANDEL_IN_FAMILIES);
}

int main(void) {
    print_record();
    print_entry();
    print_colour_and_answers();
    print_values();
    return 0;
}
