/* Calls each function with each argument at its edges: NULL, no bytes, too little room. */
#include "flutejoin.h"

#include <stdio.h>
#include <stdlib.h>
#include <string.h>

static int failures;

static void holds(const char *name, int claim) {
    if (!claim) {
        printf("not so: %s\n", name);
        failures++;
    }
}

/* The empty journal, and a datagram of one symbol. */
static const uint8_t empty[] = {'F', 'L', 'J', 'N', 0, 2, 0xff, 0, 0, 0, 0, 0, 0, 0, 0};
static const uint8_t datagram[] = {0x10, 0xA0, 0x04, 0, 0, 0, 0, 0, 0, 0,   0,
                                   7,    0,    0,    0, 1, 0, 0, 0, 0, 'h', 'e'};

/* Datagram files: of that datagram; and of one with the transmission information of the file "he",
 * and its symbol. */
static const uint8_t sent[] = {'F', 'L', 'D', 'G', 0, 1, 0, 22, 0x10, 0xA0, 0x04, 0, 0, 0,   0,
                               0,   0,   0,   0,   7, 0, 0, 0,  1,    0,    0,    0, 0, 'h', 'e'};
static const uint8_t sent_whole[] = {
    'F', 'L', 'D', 'G', 0, 1, 0, 38, 0x10, 0xA0, 0x08, 0, 0, 0, 0, 0, 0, 0, 0, 7, 0, 0,   0,
    1,   64,  4,   0,   0, 0, 0, 0,  2,    0,    0,    0, 2, 0, 0, 0, 1, 0, 0, 0, 0, 'h', 'e'};

static const flutejoin_object object = {{0, 0}, 7, {0, 1}, {0, 0}};

/* A call that has a room, with one or two inputs and no other argument that matters here. */
typedef uint32_t a_call(const uint8_t *, size_t, const uint8_t *, size_t, void *, size_t,
                        flutejoin_answer *);

#define CALL(name, words)                                                                          \
    static uint32_t name(const uint8_t *a, size_t n, const uint8_t *b, size_t m, void *room,       \
                         size_t capacity, flutejoin_answer *answer) {                              \
        (void)b, (void)m;                                                                          \
        return words;                                                                              \
    }
CALL(merge_call, flutejoin_merge(a, n, b, m, room, capacity, answer))
CALL(minus_call, flutejoin_minus(a, n, b, m, room, capacity, answer))
CALL(join_call, flutejoin_join(a, n, b, m, NULL, NULL, room, capacity, answer))
CALL(compare_call, flutejoin_compare(a, n, b, m, 1, room, capacity, answer))
CALL(fill_call, flutejoin_fill(a, n, b, m, 0, room, capacity, answer))
CALL(entries_call, flutejoin_entries(a, n, room, capacity, answer))
CALL(gaps_call, flutejoin_gaps(a, n, 0, 0, room, capacity, answer))
CALL(extract_call, flutejoin_extract(a, n, &object, 0, room, capacity, answer))

typedef struct {
    const char *name;
    a_call *call;
    size_t unit; /* how many bytes each thing has that it gives */
    int inputs;
    uint32_t of_none; /* its code if the first input has no bytes */
} edge;

typedef struct {
    const uint8_t *bytes;
    size_t length;
} content;

enum { SPACE = 4096, ROOM = SPACE / 2, UNTOUCHED = 0x55 };

/* What a call gives with just as much room as it needs. */
static content given(const edge *it, content first, content second) {
    flutejoin_answer answer;
    holds(it->name,
          it->call(first.bytes, first.length, second.bytes, second.length, NULL, 0, &answer)
              == FLUTEJOIN_OK);
    size_t needed = (size_t)answer.needed;
    holds(it->name, needed > 1 && answer.code == FLUTEJOIN_OK && !answer.text[0]);
    uint8_t *room = malloc(needed * it->unit);
    if (!room)
        exit(99);
    holds(it->name,
          it->call(first.bytes, first.length, second.bytes, second.length, room, needed, NULL)
              == FLUTEJOIN_OK);
    content all = {room, needed * it->unit};
    return all;
}

/* Whether a room has the first of what there is, in so many bytes. */
static int has_first(const edge *it, const uint8_t *room, content all, size_t size) {
    const flutejoin_entry *found = (const void *)room, *wanted = (const void *)all.bytes;
    if (it->unit == 1)
        return !memcmp(room, all.bytes, size);
    for (size_t at = 0; at < size / it->unit; at++) {
        int is_it = found[at].kind == wanted[at].kind
                    && found[at].object.tsi == wanted[at].object.tsi
                    && found[at].info.length == wanted[at].info.length
                    && found[at].symbol.start == wanted[at].symbol.start;
        if (!is_it)
            return 0;
    }
    return 1;
}

static int is_refused(uint32_t code, const flutejoin_answer *answer) {
    return code == FLUTEJOIN_BAD_ARGUMENT && answer->code == code && !answer->needed
           && !answer->number && !strcmp(answer->text, "bad argument");
}

/* Pointers and lengths that cannot be right, of each input and of the room. */
static void pointers(const edge *it, content first, content second, uint8_t *room) {
    flutejoin_answer answer;
    const uint8_t *a = first.bytes, *b = second.bytes;
    size_t n = first.length, m = second.length;
    const size_t wrong[] = {1, SIZE_MAX, (size_t)PTRDIFF_MAX + 1, 0};
    for (const size_t *size = wrong; *size; size++) {
        const uint8_t *at = *size == 1 ? NULL : a;
        holds(it->name, is_refused(it->call(at, *size, b, m, room, 8, &answer), &answer));
        holds(it->name, it->call(at, *size, b, m, room, 8, NULL) == FLUTEJOIN_BAD_ARGUMENT);
        if (it->inputs == 2)
            holds(it->name, is_refused(it->call(a, n, at, *size, room, 8, &answer), &answer));
        uint8_t *place = *size == 1 ? NULL : room;
        holds(it->name, is_refused(it->call(a, n, b, m, place, *size, &answer), &answer));
    }
    holds(it->name, is_refused(it->call(NULL, SIZE_MAX, b, m, room, 8, &answer), &answer));
    uint32_t code = it->call(NULL, 0, b, m, room, 8, &answer);
    holds(it->name, code == it->of_none && answer.code == code);
    if (it->unit > 1)
        holds(it->name, is_refused(it->call(a, n, b, m, room + 1, 1, &answer), &answer));
}

/* Room for less than there is, for all of it, and for more. */
static void capacities(const edge *it, content first, content second, content all, uint8_t *room) {
    flutejoin_answer answer;
    size_t needed = all.length / it->unit;
    for (size_t capacity = 0; capacity <= needed + 2; capacity++) {
        memset(room, UNTOUCHED, SPACE - ROOM);
        uint32_t code = it->call(first.bytes, first.length, second.bytes, second.length, room,
                                 capacity, &answer);
        holds(it->name, code == FLUTEJOIN_OK && answer.needed == needed);
        size_t size = (capacity < needed ? capacity : needed) * it->unit;
        holds(it->name, has_first(it, room, all, size) && room[size] == UNTOUCHED);
        holds(it->name, room[SPACE - ROOM - 1] == UNTOUCHED);
    }
}

/* An input that just touches the room, or reaches one byte into it. */
static void neighbours(const edge *it, content first, content second, content all, uint8_t *room) {
    flutejoin_answer answer;
    for (int number = 0; number < it->inputs; number++) {
        content moved = number ? second : first;
        uint8_t *places[] = {room - moved.length, room + all.length, room - moved.length + 1,
                             room + all.length - 1};
        for (int at = 0; at < 4; at++) {
            memcpy(places[at], moved.bytes, moved.length);
            content one = {number ? first.bytes : places[at], first.length};
            content other = {number ? places[at] : second.bytes, second.length};
            uint32_t code = it->call(one.bytes, one.length, other.bytes, other.length, room,
                                     all.length / it->unit, &answer);
            holds(it->name, code == (at < 2 ? FLUTEJOIN_OK : FLUTEJOIN_BAD_ARGUMENT));
            holds(it->name, !memcmp(places[at], moved.bytes, moved.length));
            holds(it->name, at >= 2 || has_first(it, room, all, all.length));
        }
    }
}

/* An answer where an input is. */
static void answers(const edge *it, content first, content second, content all) {
    size_t size = first.length + sizeof(flutejoin_answer);
    flutejoin_answer *answer = malloc(size);
    if (!answer)
        exit(99);
    memcpy(answer, first.bytes, first.length);
    holds(it->name,
          it->call((uint8_t *)answer, first.length, second.bytes, second.length, NULL, 0, answer)
              == FLUTEJOIN_OK);
    holds(it->name, answer->needed == all.length / it->unit);
    free(answer);
}

/* All calls that have a room: the journals are of a whole file, and of its symbol alone. */
static void rooms(void) {
    static const edge edges[] = {
        {"merge", merge_call, 1, 2, FLUTEJOIN_INPUT},
        {"minus", minus_call, 1, 2, FLUTEJOIN_INPUT},
        {"join", join_call, 1, 2, FLUTEJOIN_OK},
        {"compare", compare_call, 1, 2, FLUTEJOIN_INPUT},
        {"fill", fill_call, 1, 2, FLUTEJOIN_INPUT},
        {"entries", entries_call, sizeof(flutejoin_entry), 1, FLUTEJOIN_INPUT},
        {"gaps", gaps_call, 1, 1, FLUTEJOIN_INPUT},
        {"extract", extract_call, 1, 1, FLUTEJOIN_INPUT},
    };
    content none = {NULL, 0}, all_sent = {sent_whole, sizeof sent_whole},
            some = {sent, sizeof sent};
    content whole = given(&edges[2], none, all_sent), part = given(&edges[2], none, some);
    content lines = given(&edges[6], part, none);
    uint8_t *space = malloc(SPACE), *room = space + ROOM;
    if (!space)
        exit(99);
    for (size_t at = 0; at < sizeof edges / sizeof *edges; at++) {
        const edge *it = &edges[at];
        content second = it->inputs < 2 ? none : it->call == fill_call ? lines : part;
        content all = given(it, whole, second);
        memset(space, UNTOUCHED, SPACE);
        pointers(it, whole, second, room);
        holds(it->name, it->of_none == FLUTEJOIN_OK || room[0] == UNTOUCHED);
        capacities(it, whole, second, all, room);
        neighbours(it, whole, second, all, room);
        answers(it, whole, second, all);
        free((void *)all.bytes);
    }
    free((void *)whole.bytes);
    free((void *)part.bytes);
    free((void *)lines.bytes);
    free(space);
}

/* A datagram file of that datagram, whose length is before it, and of one that is refused. */
static const uint8_t file_begins[] = {'F', 'L', 'D', 'G', 0, 1, 0, 22};
static const uint8_t file_ends[] = {0, 1, 0x10};

static void joins(void) {
    flutejoin_answer answer;
    flutejoin_counts counts;
    flutejoin_options options = {{0, 5}, 1};
    uint8_t room[128], file[33];
    memcpy(file, file_begins, 8);
    memcpy(file + 8, datagram, 22);
    memcpy(file + 30, file_ends, 3);
    memset(room, 0x55, sizeof room);
    memset(&counts, 0x55, sizeof counts);
    holds("join", flutejoin_join(NULL, 1, empty, 15, NULL, NULL, room, 64, &answer)
                      == FLUTEJOIN_BAD_ARGUMENT);
    holds("join", flutejoin_join(empty, 15, NULL, 1, NULL, &counts, room, 64, &answer)
                      == FLUTEJOIN_BAD_ARGUMENT);
    holds("join", flutejoin_join(empty, 15, empty, 15, NULL, NULL, NULL, 1, &answer)
                      == FLUTEJOIN_BAD_ARGUMENT);
    holds("join", flutejoin_join(empty, SIZE_MAX, empty, 15, NULL, NULL, room, 64, NULL)
                      == FLUTEJOIN_BAD_ARGUMENT);
    holds("join", flutejoin_join(empty, 15, room, 15, NULL, NULL, room + 14, 64, NULL)
                      == FLUTEJOIN_BAD_ARGUMENT);
    /* What has no bytes is no input if it is the first, and else of no kind. */
    holds("join", flutejoin_join(NULL, 0, NULL, 0, NULL, &counts, room, 128, &answer)
                      == FLUTEJOIN_UNKNOWN_KIND);
    holds("join", answer.number == 1 && !strcmp(answer.text, "input 1: unknown kind"));
    holds("join", flutejoin_join(empty, 15, NULL, 0, &options, &counts, room, 128, &answer)
                      == FLUTEJOIN_UNKNOWN_KIND);
    holds("join", answer.number == 2 && answer.code == FLUTEJOIN_UNKNOWN_KIND);
    holds("join", flutejoin_join(empty, 15, file, 32, &options, &counts, room, 128, &answer)
                      == FLUTEJOIN_INPUT);
    holds("join", answer.number == 2 && !strcmp(answer.text, "input 2: Cut") && !answer.needed);
    holds("join",
          flutejoin_join(empty, 14, file, 33, NULL, NULL, NULL, 0, NULL) == FLUTEJOIN_INPUT);
    holds("join", counts.entries == 0x5555555555555555u && room[0] == 0x55);
    holds("join", flutejoin_join(NULL, 0, empty, 15, NULL, NULL, room, 128, NULL) == FLUTEJOIN_OK);
    holds("join", !memcmp(room, empty, 15) && room[15] == 0x55);
    holds("join",
          flutejoin_join(file, 33, empty, 15, &options, &counts, NULL, 0, &answer) == FLUTEJOIN_OK);
    holds("join", counts.datagrams == 2 && counts.refused == 1 && counts.entries == 1);
    size_t needed = (size_t)answer.needed;
    memset(room, 0x55, sizeof room);
    holds("join", flutejoin_join(file, 33, file, 33, &options, &counts, room, 128, &answer)
                      == FLUTEJOIN_OK);
    holds("join", answer.needed == needed && room[needed] == 0x55 && room[needed - 1] != 0x55);
    holds("join", counts.datagrams == 4 && counts.refused == 2 && counts.entries == 1);
}

/* The entries of the journal of that datagram, sent by 5. */
static void entries(void) {
    flutejoin_answer answer;
    flutejoin_options options = {{0, 5}, 0};
    flutejoin_entry room[2];
    uint8_t file[30], journal[64];
    const uint8_t *untouched = (const uint8_t *)&room[1];
    memcpy(file, file_begins, 8);
    memcpy(file + 8, datagram, 22);
    memset(room, 0x55, sizeof room);
    holds("entries", flutejoin_entries(NULL, 1, room, 2, &answer) == FLUTEJOIN_BAD_ARGUMENT);
    holds("entries", flutejoin_entries(empty, 15, NULL, 1, &answer) == FLUTEJOIN_BAD_ARGUMENT);
    holds("entries", flutejoin_entries(empty, 15, room, SIZE_MAX, NULL) == FLUTEJOIN_BAD_ARGUMENT);
    holds("entries", flutejoin_entries(empty, 15, room, PTRDIFF_MAX / sizeof *room + 1, NULL)
                         == FLUTEJOIN_BAD_ARGUMENT);
    holds("entries",
          flutejoin_entries((uint8_t *)&room[2] - 1, 1, room, 2, NULL) == FLUTEJOIN_BAD_ARGUMENT);
    holds("entries", flutejoin_entries(NULL, 0, room, 2, &answer) == FLUTEJOIN_INPUT);
    holds("entries", answer.number == 1 && !strcmp(answer.text, "input 1: Cut") && !answer.needed);
    holds("entries", flutejoin_entries(empty, 14, room, 2, NULL) == FLUTEJOIN_INPUT);
    holds("entries", room[0].kind == 0x55555555u);
    holds("entries", flutejoin_entries(empty, 15, room, 2, &answer) == FLUTEJOIN_OK);
    holds("entries", answer.needed == 0 && room[0].kind == 0x55555555u);
    holds("entries",
          flutejoin_join(NULL, 0, file, 30, &options, NULL, journal, 64, &answer) == FLUTEJOIN_OK);
    size_t length = (size_t)answer.needed;
    holds("entries", flutejoin_entries(journal, length, NULL, 0, &answer) == FLUTEJOIN_OK);
    holds("entries", answer.needed == 1);
    holds("entries", flutejoin_entries(journal, length, room, 2, &answer) == FLUTEJOIN_OK);
    holds("entries", answer.needed == 1 && *untouched == 0x55);
    holds("entries", room->kind == FLUTEJOIN_ENTRY_SYMBOL && !room->info.present);
    holds("entries", !room->object.sender.high && room->object.sender.low == 5);
    holds("entries", room->object.tsi == 7 && !room->object.toi.high && room->object.toi.low == 1);
    holds("entries", !room->object.instance.present && room->symbol.present == 1);
    holds("entries", !room->symbol.sbn && !room->symbol.esi && room->symbol.length == 2);
    holds("entries", !memcmp(journal + room->symbol.start, "he", 2));
}

/* Any number but 0 is an option. */
static void flags(void) {
    static const uint32_t numbers[] = {1, 2, 0x80000000u, UINT32_MAX};
    flutejoin_answer answer;
    uint8_t journal[128];
    holds("flags", flutejoin_join(NULL, 0, sent, sizeof sent, NULL, NULL, journal, 128, &answer)
                       == FLUTEJOIN_OK);
    size_t length = (size_t)answer.needed;
    for (size_t at = 0; at < sizeof numbers / sizeof *numbers; at++) {
        uint32_t number = numbers[at];
        uint8_t room[128] = {0};
        holds("gaps",
              flutejoin_gaps(journal, length, number, number, room, 128, &answer) == FLUTEJOIN_OK);
        holds("gaps", answer.needed > 1 && room[0] == '{');
        holds("compare",
              flutejoin_compare(journal, length, journal, length, number, room, 128, &answer)
                  == FLUTEJOIN_OK);
        holds("compare", answer.needed > 1 && room[0] == '{');
        holds("fill",
              flutejoin_fill(journal, length, NULL, 0, number, NULL, 0, &answer) == FLUTEJOIN_OK);
        holds("fill", answer.needed == sizeof empty);
        flutejoin_options options = {{0, 0}, number};
        holds("join", flutejoin_join(NULL, 0, sent, sizeof sent, &options, NULL, NULL, 0, &answer)
                          == FLUTEJOIN_OK);
        holds("join", answer.needed == length);
    }
}

static void objects(void) {
    flutejoin_answer answer;
    flutejoin_held held;
    flutejoin_object other = object;
    uint8_t room[64];
    memset(room, 0x55, sizeof room);
    memset(&held, 0x55, sizeof held);
    holds("extract",
          flutejoin_extract(empty, 15, NULL, 0, room, 64, &answer) == FLUTEJOIN_BAD_ARGUMENT);
    holds("extract",
          flutejoin_extract(NULL, 1, &object, 0, room, 64, &answer) == FLUTEJOIN_BAD_ARGUMENT);
    holds("extract",
          flutejoin_extract(empty, 15, &object, 0, NULL, 1, &answer) == FLUTEJOIN_BAD_ARGUMENT);
    holds("extract",
          flutejoin_extract(room, 15, &object, 0, room, 64, NULL) == FLUTEJOIN_BAD_ARGUMENT);
    holds("extract", flutejoin_extract(NULL, 0, &object, 1, NULL, 0, NULL) == FLUTEJOIN_INPUT);
    holds("extract",
          flutejoin_extract(empty, 15, &object, 1, room, 64, &answer) == FLUTEJOIN_NO_OBJECT);
    holds("extract", !strcmp(answer.text, "no object") && !answer.needed && room[0] == 0x55);
    holds("status", flutejoin_status(empty, 15, NULL, 0, &held, &answer) == FLUTEJOIN_BAD_ARGUMENT);
    holds("status",
          flutejoin_status(empty, 15, &object, 0, NULL, &answer) == FLUTEJOIN_BAD_ARGUMENT);
    holds("status", flutejoin_status(NULL, 1, &object, 0, &held, NULL) == FLUTEJOIN_BAD_ARGUMENT);
    holds("status",
          flutejoin_status(empty, SIZE_MAX, &object, 0, &held, NULL) == FLUTEJOIN_BAD_ARGUMENT);
    holds("status", flutejoin_status(NULL, 0, &object, 0, &held, NULL) == FLUTEJOIN_INPUT);
    holds("status", flutejoin_status(empty, 15, &object, 1, &held, &answer) == FLUTEJOIN_NO_OBJECT);
    other.instance.present = 1;
    holds("status", flutejoin_status(empty, 15, &other, 1, &held, &answer) == FLUTEJOIN_BAD_KEY);
    holds("status", !strcmp(answer.text, "bad key") && held.status == 0x55555555u);
}

static void packets(void) {
    flutejoin_answer answer;
    flutejoin_packet packet;
    memset(&packet, 0x55, sizeof packet);
    holds("read", flutejoin_read(datagram, 22, NULL, &answer) == FLUTEJOIN_BAD_ARGUMENT);
    holds("read", flutejoin_read(NULL, 1, &packet, &answer) == FLUTEJOIN_BAD_ARGUMENT);
    holds("read", flutejoin_read(NULL, 0, &packet, &answer) == FLUTEJOIN_REFUSED);
    holds("read", answer.number == 2 && !strcmp(answer.text, "refused: 2 TooShort"));
    holds("read", packet.tsi == 0x5555555555555555u);
    holds("read", flutejoin_read(datagram, 22, &packet, NULL) == FLUTEJOIN_OK);
    holds("read", packet.tsi == 7 && packet.toi.low == 1 && packet.toi.high == 0);
    holds("read", !packet.info.present && !packet.instance.present);
    holds("read", packet.symbol.present == 1 && packet.symbol.start == 20);
    holds("read", packet.symbol.length == 2);
    holds("read", flutejoin_read(datagram, SIZE_MAX, &packet, NULL) == FLUTEJOIN_BAD_ARGUMENT);
    static uint8_t longest[65536];
    memcpy(longest, datagram, sizeof datagram);
    holds("read", flutejoin_read(longest, 65535, &packet, &answer) == FLUTEJOIN_OK);
    holds("read", packet.symbol.start == 20 && packet.symbol.length == 65515);
    holds("read", flutejoin_read(longest, 65536, &packet, &answer) == FLUTEJOIN_REFUSED);
    holds("read", answer.number == 1 && !strcmp(answer.text, "refused: 1 TooLong"));
    holds("read", packet.symbol.length == 65515);
}

int main(void) {
    rooms();
    joins();
    entries();
    flags();
    objects();
    packets();
    if (!failures)
        puts("all right");
    return failures != 0;
}
