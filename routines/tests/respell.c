/* The library called from C, and from C++: `respell STREAM WIDTHS` prints the house spelling. */
#include "files.h"
#include "mrkvandel.h"

int main(int count, char **words) {
    if (count != 3) {
        fputs("usage: respell STREAM WIDTHS\n", stderr);
        return 2;
    }
    size_t stream_len, widths_len;
    uint8_t *stream = read_file(words[1], &stream_len);
    uint8_t *widths = read_file(words[2], &widths_len);
    /* no spelling has over 16 bytes for each of the stream, and none is over the limit */
    size_t most = MRKVANDEL_SPELLING_LIMIT;
    size_t out_len = stream_len < most / 16 ? 16 * stream_len : most;
    uint8_t *out = (uint8_t *)room(out_len, 1);
    mrkvandel_respell_result answer = mrkvandel_respell(stream, stream_len, widths, widths_len, out, out_len);
    if (answer.refusal != MRKVANDEL_ACCEPTED) {
        printf("refused %u %zu\n", answer.refusal, answer.offset);
        return 1;
    }
    fwrite(out, 1, answer.len, stdout);
    return 0;
}
