/* The calls of flutejoin.h: each refuses pointers that the proved call behind it cannot take, makes
 * that call, and then hands over what it told. Nothing here is proved. */
#include "flutejoin.h"

#include <string.h>

/* The proved calls (crates/flutejoin_c). No pointer is NULL, and no two overlap. */
uint32_t flutejoin_c_read(const uint8_t *, size_t, flutejoin_packet *, flutejoin_answer *);
uint32_t flutejoin_c_merge(const uint8_t *, size_t, const uint8_t *, size_t, uint8_t *, size_t,
                           flutejoin_answer *);
uint32_t flutejoin_c_minus(const uint8_t *, size_t, const uint8_t *, size_t, uint8_t *, size_t,
                           flutejoin_answer *);
uint32_t flutejoin_c_join(const uint8_t *, size_t, const uint8_t *, size_t,
                          const flutejoin_options *, flutejoin_counts *, uint8_t *, size_t,
                          flutejoin_answer *);
uint32_t flutejoin_c_entries(const uint8_t *, size_t, flutejoin_entry *, size_t,
                             flutejoin_answer *);
uint32_t flutejoin_c_gaps(const uint8_t *, size_t, uint32_t, uint32_t, uint8_t *, size_t,
                          flutejoin_answer *);
uint32_t flutejoin_c_fill(const uint8_t *, size_t, const uint8_t *, size_t, uint32_t, uint8_t *,
                          size_t, flutejoin_answer *);
uint32_t flutejoin_c_compare(const uint8_t *, size_t, const uint8_t *, size_t, uint32_t, uint8_t *,
                             size_t, flutejoin_answer *);
uint32_t flutejoin_c_extract(const uint8_t *, size_t, const flutejoin_object *, uint32_t,
                             uint8_t *, size_t, flutejoin_answer *);
uint32_t flutejoin_c_status(const uint8_t *, size_t, const flutejoin_object *, uint32_t,
                            flutejoin_held *, flutejoin_answer *);

/* What no bytes are taken from, or put into, and what no entries are put into. */
static uint8_t none[1];
static flutejoin_entry no_entries[1];

/* The bytes at a pointer, of which there are none if it is NULL. */
#define AT(pointer) ((pointer) ? (pointer) : none)

static int is_right(const void *bytes, size_t length) {
    return bytes ? length <= PTRDIFF_MAX : length == 0;
}

static int overlap(const void *room, size_t capacity, const void *bytes, size_t length) {
    uintptr_t first = (uintptr_t)room, second = (uintptr_t)bytes;
    return capacity && length && (first - second < length || second - first < capacity);
}

/* Whether a room can be written to that is beside this input. */
static int is_room(const void *room, size_t capacity, const uint8_t *bytes, size_t length) {
    return is_right(room, capacity) && is_right(bytes, length)
           && !overlap(room, capacity, bytes, length);
}

/* Whether this many entries can be put there, beside this input. */
static int is_room_of_entries(const flutejoin_entry *room, size_t capacity, const uint8_t *bytes,
                              size_t length) {
    struct placed {
        char byte;
        flutejoin_entry entry;
    };
    return (uintptr_t)room % offsetof(struct placed, entry) == 0
           && capacity <= PTRDIFF_MAX / sizeof *room
           && is_room(room, capacity * sizeof *room, bytes, length);
}

/* An answer to be filled in, with nothing in it yet. */
static flutejoin_answer *begun(flutejoin_answer *own) {
    memset(own, 0, sizeof *own);
    return own;
}

/* Hands an answer to the caller, who may want none, after all else: it may lie where an input or
 * the room does. */
static uint32_t answered(const flutejoin_answer *own, flutejoin_answer *answer) {
    uint32_t code = own->code;
    if (answer)
        *answer = *own;
    return code;
}

static uint32_t bad_argument(flutejoin_answer *answer) {
    flutejoin_answer own;
    begun(&own)->code = FLUTEJOIN_BAD_ARGUMENT;
    strcpy(own.text, "bad argument");
    return answered(&own, answer);
}

uint32_t flutejoin_read(const uint8_t *datagram, size_t length, flutejoin_packet *packet,
                        flutejoin_answer *answer) {
    flutejoin_answer own;
    flutejoin_packet read;
    memset(&read, 0, sizeof read);
    if (!packet || !is_right(datagram, length))
        return bad_argument(answer);
    if (flutejoin_c_read(AT(datagram), length, &read, begun(&own)) == FLUTEJOIN_OK)
        *packet = read;
    return answered(&own, answer);
}

uint32_t flutejoin_merge(const uint8_t *first, size_t first_length, const uint8_t *second,
                         size_t second_length, uint8_t *room, size_t capacity,
                         flutejoin_answer *answer) {
    flutejoin_answer own;
    if (!is_room(room, capacity, first, first_length)
        || !is_room(room, capacity, second, second_length))
        return bad_argument(answer);
    flutejoin_c_merge(AT(first), first_length, AT(second), second_length, AT(room), capacity,
                      begun(&own));
    return answered(&own, answer);
}

uint32_t flutejoin_minus(const uint8_t *first, size_t first_length, const uint8_t *second,
                         size_t second_length, uint8_t *room, size_t capacity,
                         flutejoin_answer *answer) {
    flutejoin_answer own;
    if (!is_room(room, capacity, first, first_length)
        || !is_room(room, capacity, second, second_length))
        return bad_argument(answer);
    flutejoin_c_minus(AT(first), first_length, AT(second), second_length, AT(room), capacity,
                      begun(&own));
    return answered(&own, answer);
}

uint32_t flutejoin_join(const uint8_t *first, size_t first_length, const uint8_t *second,
                        size_t second_length, const flutejoin_options *options,
                        flutejoin_counts *counts, uint8_t *room, size_t capacity,
                        flutejoin_answer *answer) {
    flutejoin_answer own;
    flutejoin_options how;
    flutejoin_counts told;
    memset(&how, 0, sizeof how);
    memset(&told, 0, sizeof told);
    if (!is_room(room, capacity, first, first_length)
        || !is_room(room, capacity, second, second_length))
        return bad_argument(answer);
    if (options)
        how = *options;
    uint32_t code = flutejoin_c_join(AT(first), first_length, AT(second), second_length, &how,
                                     &told, AT(room), capacity, begun(&own));
    if (code == FLUTEJOIN_OK && counts)
        *counts = told;
    return answered(&own, answer);
}

uint32_t flutejoin_entries(const uint8_t *journal, size_t length, flutejoin_entry *room,
                           size_t capacity, flutejoin_answer *answer) {
    flutejoin_answer own;
    if (!is_room_of_entries(room, capacity, journal, length))
        return bad_argument(answer);
    flutejoin_c_entries(AT(journal), length, room ? room : no_entries, capacity, begun(&own));
    return answered(&own, answer);
}

uint32_t flutejoin_gaps(const uint8_t *journal, size_t length, uint32_t any_size, uint32_t json,
                        uint8_t *room, size_t capacity, flutejoin_answer *answer) {
    flutejoin_answer own;
    if (!is_room(room, capacity, journal, length))
        return bad_argument(answer);
    flutejoin_c_gaps(AT(journal), length, any_size, json, AT(room), capacity, begun(&own));
    return answered(&own, answer);
}

uint32_t flutejoin_fill(const uint8_t *journal, size_t length, const uint8_t *lines,
                        size_t lines_length, uint32_t only, uint8_t *room, size_t capacity,
                        flutejoin_answer *answer) {
    flutejoin_answer own;
    if (!is_room(room, capacity, journal, length) || !is_room(room, capacity, lines, lines_length))
        return bad_argument(answer);
    flutejoin_c_fill(AT(journal), length, AT(lines), lines_length, only, AT(room), capacity,
                     begun(&own));
    return answered(&own, answer);
}

uint32_t flutejoin_compare(const uint8_t *first, size_t first_length, const uint8_t *second,
                           size_t second_length, uint32_t json, uint8_t *room, size_t capacity,
                           flutejoin_answer *answer) {
    flutejoin_answer own;
    if (!is_room(room, capacity, first, first_length)
        || !is_room(room, capacity, second, second_length))
        return bad_argument(answer);
    flutejoin_c_compare(AT(first), first_length, AT(second), second_length, json, AT(room),
                        capacity, begun(&own));
    return answered(&own, answer);
}

uint32_t flutejoin_extract(const uint8_t *journal, size_t length, const flutejoin_object *object,
                           uint32_t any_size, uint8_t *room, size_t capacity,
                           flutejoin_answer *answer) {
    flutejoin_answer own;
    flutejoin_object named;
    if (!object || !is_room(room, capacity, journal, length))
        return bad_argument(answer);
    named = *object;
    flutejoin_c_extract(AT(journal), length, &named, any_size, AT(room), capacity, begun(&own));
    return answered(&own, answer);
}

uint32_t flutejoin_status(const uint8_t *journal, size_t length, const flutejoin_object *object,
                          uint32_t any_size, flutejoin_held *held, flutejoin_answer *answer) {
    flutejoin_answer own;
    flutejoin_object named;
    flutejoin_held told;
    memset(&told, 0, sizeof told);
    if (!object || !held || !is_right(journal, length))
        return bad_argument(answer);
    named = *object;
    if (flutejoin_c_status(AT(journal), length, &named, any_size, &told, begun(&own))
        == FLUTEJOIN_OK)
        *held = told;
    return answered(&own, answer);
}
