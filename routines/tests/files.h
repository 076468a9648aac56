/* What the C programs of this folder share: memory, and whole files. */
#include <stdint.h>
#include <stdio.h>
#include <stdlib.h>

/* memory for so many items, and never of no bytes at all */
static void *room(size_t count, size_t size) {
    void *memory = calloc(count + 1, size);
    if (memory == NULL) {
        perror("memory");
        exit(2);
    }
    return memory;
}

static uint8_t *read_file(const char *name, size_t *length) {
    FILE *file = fopen(name, "rb");
    if (file == NULL || fseek(file, 0, SEEK_END) != 0) {
        perror(name);
        exit(2);
    }
    *length = (size_t)ftell(file);
    rewind(file);
    uint8_t *bytes = (uint8_t *)room(*length, 1);
    if (fread(bytes, 1, *length, file) != *length) {
        perror(name);
        exit(2);
    }
    fclose(file);
    return bytes;
}
