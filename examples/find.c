/* What a search screen calls: how much room a stream needs, then where the query occurs. */
#include "mrkvandel.h"
#include <stdio.h>
#include <stdlib.h>

static uint8_t *load(const char *name, size_t *length) {
    size_t most = MRKVANDEL_STREAM_LIMIT + 1; /* a longer file is refused all the same */
    uint8_t *bytes = malloc(most);
    FILE *file = fopen(name, "rb");
    *length = bytes && file ? fread(bytes, 1, most, file) : 0;
    if (!bytes || !file || ferror(file) || fclose(file)) {
        perror(name);
        exit(2);
    }
    return bytes;
}

int main(int count, char **names) {
    if (count != 4 && count != 5) {
        fprintf(stderr, "usage: %s STREAM WIDTHS QUERY [FAMILIES]\n", names[0]);
        return 2;
    }
    size_t s_len, w_len, q_len, f_len = 0;
    uint8_t *s = load(names[1], &s_len), *w = load(names[2], &w_len), *q = load(names[3], &q_len);
    uint8_t *f = count == 5 ? load(names[4], &f_len) : q; /* an empty list: no byte of it is looked at */
    size_t room = mrkvandel_judge(s, s_len, w, w_len).records; /* 0 in a refusal, which the finder tells */
    mrkvandel_record *records = malloc((room + 1) * sizeof *records); /* no pointer may be null, so one more */
    uint32_t *hits = malloc((room + 1) * sizeof *hits);
    if (!records || !hits) return 2;
    mrkvandel_find_result found = mrkvandel_find(s, s_len, w, w_len, f, f_len, q, q_len, records, room, hits, room);
    for (size_t i = 0; i < found.hits; i++)
        printf("record %u, page %d\n", hits[i], records[hits[i]].page);
    printf("%zu hits, refusal %u at %zu\n", found.hits, found.refusal, found.offset);
    return found.refusal != MRKVANDEL_ACCEPTED;
}
