/* The library called from C, and from C++: `find STREAM WIDTHS FAMILIES QUERY` prints the text of FORMATS. */
#include "files.h"
#include "mrkvandel.h"

int main(int count, char **words) {
    if (count != 5) {
        fputs("usage: find STREAM WIDTHS FAMILIES QUERY\n", stderr);
        return 2;
    }
    size_t stream_len, widths_len, families_len, query_len;
    uint8_t *stream = read_file(words[1], &stream_len);
    uint8_t *widths = read_file(words[2], &widths_len);
    uint8_t *families = read_file(words[3], &families_len);
    uint8_t *query = read_file(words[4], &query_len);
    /* no stream has more records than bytes, nor more hits than records */
    mrkvandel_record *records = (mrkvandel_record *)room(stream_len, sizeof *records);
    uint32_t *hits = (uint32_t *)room(stream_len, sizeof *hits);
    mrkvandel_find_result answer = mrkvandel_find(stream, stream_len, widths, widths_len, families, families_len,
                                                  query, query_len, records, stream_len, hits, stream_len);
    if (answer.refusal != MRKVANDEL_ACCEPTED) {
        printf("refused %u %zu\n", answer.refusal, answer.offset);
        return 1;
    }
    for (size_t i = 0; i < answer.hits; i++) {
        printf("hit %u\n", hits[i]);
    }
    printf("found %zu %zu\n", answer.records, answer.hits);
    return 0;
}
