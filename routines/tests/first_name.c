/* The library called from C, and from C++: `first_name STREAM FAMILIES PLACE LENGTH` prints where the first name for a record of this
   place and length stands: `nowhere`, or `stream` or `families`, its place, its length and its bytes. */
#include "files.h"
#include "mrkvandel.h"

static void print_part(const char *name, const uint8_t *bytes, mrkvandel_first_name_result answer) {
    printf("%s %zu %zu ", name, answer.place, answer.len);
    fwrite(bytes + answer.place, 1, answer.len, stdout);
    putchar('\n');
}

int main(int count, char **words) {
    if (count != 5) {
        fputs("usage: first_name STREAM FAMILIES PLACE LENGTH\n", stderr);
        return 2;
    }
    size_t stream_len, families_len;
    uint8_t *stream = read_file(words[1], &stream_len);
    uint8_t *families = read_file(words[2], &families_len);
    size_t place = (size_t)strtoull(words[3], NULL, 10);
    size_t len = (size_t)strtoull(words[4], NULL, 10);
    mrkvandel_first_name_result answer =
        mrkvandel_first_name(stream, stream_len, families, families_len, place, len);
    switch (answer.source) {
    case MRKVANDEL_NO_NAME:
        puts("nowhere");
        break;
    case MRKVANDEL_IN_STREAM:
        print_part("stream", stream, answer);
        break;
    case MRKVANDEL_IN_FAMILIES:
        print_part("families", families, answer);
        break;
    default:
        printf("source %u\n", answer.source);
        return 1;
    }
    return 0;
}
