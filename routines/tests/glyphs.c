/* The library called from C, and from C++: `glyphs STREAM WIDTHS` prints the text of FORMATS. */
#include "files.h"
#include "mrkvandel.h"

static void print_record(const uint8_t *stream, const mrkvandel_record *r) {
    printf("glyph %u %d %d %d %u %u ", r->ordinal, r->page, r->h, r->v, r->font, r->size);
    printf("%u %u %u %u ", r->gap, r->index, r->place, r->len);
    fwrite(stream + r->place, 1, r->len, stdout);
    putchar('\n');
}

static void print_entry(const mrkvandel_entry *e) {
    printf("entry %c%c", (int)e->command, (int)e->letter);
    if (e->scheme != 0) {
        putchar((int)e->scheme);
    }
    printf(" %u %u %u %d %d\n", e->ordinal, e->place, e->len, e->h, e->v);
}

static void print_colour(const mrkvandel_colour *c) {
    printf(" %c %u %u %u %u", (int)c->scheme, c->parts[0], c->parts[1], c->parts[2], c->parts[3]);
}

static void print_end(const mrkvandel_read_result *a) {
    printf("end %zu %zu %u %d %d", a->records, a->entries, a->pages, a->h, a->v);
    print_colour(&a->glyph);
    print_colour(&a->fill);
    putchar('\n');
}

int main(int count, char **words) {
    if (count != 3) {
        fputs("usage: glyphs STREAM WIDTHS\n", stderr);
        return 2;
    }
    size_t stream_len, widths_len;
    uint8_t *stream = read_file(words[1], &stream_len);
    uint8_t *widths = read_file(words[2], &widths_len);
    size_t records_len = stream_len, entries_len = stream_len / 2;
    mrkvandel_record *records = (mrkvandel_record *)room(records_len, sizeof *records);
    mrkvandel_entry *entries = (mrkvandel_entry *)room(entries_len, sizeof *entries);
    mrkvandel_read_result answer =
        mrkvandel_read(stream, stream_len, widths, widths_len, records, records_len, entries, entries_len);
    if (answer.refusal != MRKVANDEL_ACCEPTED) {
        printf("refused %u %zu\n", answer.refusal, answer.offset);
        return 1;
    }
    for (size_t i = 0; i < answer.records; i++) {
        print_record(stream, &records[i]);
    }
    for (size_t i = 0; i < answer.entries; i++) {
        print_entry(&entries[i]);
    }
    print_end(&answer);
    return 0;
}
