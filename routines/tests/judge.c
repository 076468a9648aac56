/* The library called from C, and from C++: `judge STREAM WIDTHS` prints the numbers of records, entries and pages, and the length of
   the spelling. */
#include "files.h"
#include "mrkvandel.h"

int main(int count, char **words) {
    if (count != 3) {
        fputs("usage: judge STREAM WIDTHS\n", stderr);
        return 2;
    }
    size_t stream_len, widths_len;
    uint8_t *stream = read_file(words[1], &stream_len);
    uint8_t *widths = read_file(words[2], &widths_len);
    mrkvandel_judge_result answer = mrkvandel_judge(stream, stream_len, widths, widths_len);
    if (answer.refusal != MRKVANDEL_ACCEPTED) {
        printf("refused %u %zu\n", answer.refusal, answer.offset);
        return 1;
    }
    printf("accepted %zu %zu %u %zu\n", answer.records, answer.entries, answer.pages, answer.spelling);
    return 0;
}
