/* Makes the same calls in several threads at once, each of which gets what one alone gets:
 * library_threads DATAGRAMS */
#include "flutejoin.h"

#include <pthread.h>
#include <stdio.h>
#include <stdlib.h>
#include <string.h>

enum { THREADS = 4, TURNS = 8, ROOM = 65536, ENTRIES = 64 };

/* What the calls give of a datagram file. */
typedef struct {
    uint64_t sizes[5];
    uint32_t codes[7];
    uint8_t journal[ROOM];
    uint8_t lines[ROOM];
    uint8_t file[ROOM];
    flutejoin_entry entries[ENTRIES];
    flutejoin_packet packet;
    flutejoin_held held;
} results;

static uint8_t sent[ROOM];
static size_t length;
static results alone;

static void make_calls(results *all) {
    static const flutejoin_object object = {{0, 0}, 7, {0, 1}, {0, 0}};
    flutejoin_answer answer;
    memset(all, 0, sizeof *all);
    all->codes[0] = flutejoin_join(NULL, 0, sent, length, NULL, NULL, all->journal, ROOM, &answer);
    size_t size = (size_t)(all->sizes[0] = answer.needed);
    all->codes[1] = flutejoin_gaps(all->journal, size, 0, 1, all->lines, ROOM, &answer);
    all->sizes[1] = answer.needed;
    all->codes[2] = flutejoin_extract(all->journal, size, &object, 0, all->file, ROOM, &answer);
    all->sizes[2] = answer.needed;
    all->codes[3] = flutejoin_entries(all->journal, size, all->entries, ENTRIES, &answer);
    all->sizes[3] = answer.needed;
    all->codes[4] = flutejoin_status(all->journal, size, &object, 0, &all->held, &answer);
    all->codes[5] = flutejoin_merge(all->journal, size - 1, all->journal, size, NULL, 0, &answer);
    all->sizes[4] = answer.number;
    all->codes[6] = flutejoin_read(sent + 8, (size_t)sent[6] << 8 | sent[7], &all->packet, &answer);
}

static int are_same(const results *one, const results *other) {
    return !memcmp(one->sizes, other->sizes, sizeof one->sizes)
           && !memcmp(one->codes, other->codes, sizeof one->codes)
           && !memcmp(one->journal, other->journal, ROOM) && !memcmp(one->lines, other->lines, ROOM)
           && !memcmp(one->file, other->file, ROOM)
           && one->entries[1].symbol.start == other->entries[1].symbol.start
           && one->packet.symbol.length == other->packet.symbol.length
           && one->held.length == other->held.length;
}

static void *turns(void *unused) {
    results *all = malloc(sizeof *all);
    size_t wrong = !all;
    for (int turn = 0; all && turn < TURNS; turn++) {
        make_calls(all);
        wrong += !are_same(all, &alone);
    }
    free(all);
    (void)unused;
    return wrong ? &alone : NULL;
}

int main(int count, char **words) {
    pthread_t threads[THREADS];
    FILE *file = count == 2 ? fopen(words[1], "rb") : NULL;
    if (!file)
        return 99;
    length = fread(sent, 1, ROOM, file);
    fclose(file);
    make_calls(&alone);
    for (int at = 0; at < THREADS; at++)
        if (pthread_create(&threads[at], NULL, turns, NULL))
            return 99;
    int failures = 0;
    for (int at = 0; at < THREADS; at++) {
        void *wrong = &alone;
        failures += pthread_join(threads[at], &wrong) || wrong;
    }
    printf("%s: %d\n", alone.file, failures);
    return failures || alone.codes[5] != FLUTEJOIN_INPUT || alone.held.length != alone.sizes[2];
}
