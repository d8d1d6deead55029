/* Joins journals and datagram files, and prints what is missing: library INPUT.. */
#include "flutejoin.h"

#include <stdio.h>
#include <stdlib.h>

typedef struct {
    uint8_t *bytes;
    size_t length;
} content;

static void fail(const flutejoin_answer *answer) {
    fprintf(stderr, "%s\n", answer->text);
    exit((int)answer->code);
}

static content read_file(const char *path) {
    content file = {NULL, 0};
    FILE *stream = fopen(path, "rb");
    if (!stream || fseek(stream, 0, SEEK_END))
        exit(99);
    file.length = (size_t)ftell(stream);
    rewind(stream);
    file.bytes = malloc(file.length + 1);
    if (!file.bytes || fread(file.bytes, 1, file.length, stream) != file.length)
        exit(99);
    fclose(stream);
    return file;
}

/* The journal of both; there may be none yet. Its size is asked first, with no room. */
static content join(content journal, content input) {
    flutejoin_answer answer;
    content both = {NULL, 0};
    if (flutejoin_join(journal.bytes, journal.length, input.bytes, input.length, NULL, NULL, NULL,
                       0, &answer))
        fail(&answer);
    both.length = (size_t)answer.needed;
    both.bytes = malloc(both.length + 1);
    if (!both.bytes || flutejoin_join(journal.bytes, journal.length, input.bytes, input.length,
                                      NULL, NULL, both.bytes, both.length, &answer))
        fail(&answer);
    free(journal.bytes);
    free(input.bytes);
    return both;
}

int main(int count, char **words) {
    flutejoin_answer answer;
    content journal = {NULL, 0};
    for (int at = 1; at < count; at++)
        journal = join(journal, read_file(words[at]));
    if (flutejoin_gaps(journal.bytes, journal.length, 0, 0, NULL, 0, &answer))
        fail(&answer);
    size_t size = (size_t)answer.needed;
    uint8_t *lines = malloc(size + 1);
    if (!lines || flutejoin_gaps(journal.bytes, journal.length, 0, 0, lines, size, &answer))
        fail(&answer);
    fwrite(lines, 1, size, stdout);
    free(journal.bytes);
    free(lines);
    return 0;
}
