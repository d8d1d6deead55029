/* flutejoin: what stations received of FLUTE sessions (RFC 6726), joined.
 *
 * Each call works on bytes in memory and keeps nothing between calls. Several threads may call at
 * once. A call takes memory by malloc, and gives it back before it returns.
 *
 * An input is a pointer and a length. NULL is allowed if the length is 0. A room for what a call
 * gives is a pointer and a capacity, and NULL is allowed if the capacity is 0. `needed` of the
 * answer is how much there was to give: if that is more than the capacity, the room has the first
 * of it, and the call can be made again with a larger one. The room must not overlap an input. All
 * else is written once the inputs are read, and the answer last, so that it may lie where they do.
 * If `any_size` is not 0, it is the option --any-size.
 *
 * A call returns FLUTEJOIN_OK or the number of a fault. After a fault the room is as it was. The
 * answer, which may be NULL, has the same number, and the line that the program `flutejoin` prints.
 */
#ifndef FLUTEJOIN_H
#define FLUTEJOIN_H

#include <stddef.h>
#include <stdint.h>

#ifdef __cplusplus
extern "C" {
#endif

/* The number of a fault stays what it is. */
enum flutejoin_code {
    FLUTEJOIN_OK = 0,
    FLUTEJOIN_BAD_ARGUMENT = 1, /* NULL where it is not allowed, a length above PTRDIFF_MAX, or a
                                   room that overlaps an input or is not aligned */
    FLUTEJOIN_BAD_KEY = 2,      /* no object has such a name */
    FLUTEJOIN_REFUSED = 4,      /* the datagram is no packet */
    FLUTEJOIN_INPUT = 5,        /* an input is no journal, or a damaged datagram file */
    FLUTEJOIN_UNKNOWN_KIND = 6, /* an input of a join begins as neither of them */
    FLUTEJOIN_BAD_LINE = 7,     /* a line is none that `gaps` prints there */
    FLUTEJOIN_FULL = 8,         /* more sessions, objects, symbols or entries than are taken in */
    FLUTEJOIN_NO_OBJECT = 9,    /* nothing of the object is held */
    FLUTEJOIN_NO_INFORMATION = 10,          /* symbols of it, and no transmission information */
    FLUTEJOIN_CONFLICTING_INFORMATION = 11, /* two values of that */
    FLUTEJOIN_NOT_WHOLE = 12,               /* a symbol is not held as one fitting value */
    FLUTEJOIN_OUT_OF_MEMORY = 13
};

/* A number below 2^128: high * 2^64 + low. */
typedef struct flutejoin_wide {
    uint64_t high;
    uint64_t low;
} flutejoin_wide;

/* How a call ended. */
typedef struct flutejoin_answer {
    uint64_t needed; /* how much there is to give; 0 after a fault */
    uint32_t code;   /* FLUTEJOIN_OK, or the number of the fault */
    uint64_t number; /* of the input at fault, from 1; of a refusal; of a bad line, from 1; or of
                        the first symbol that is wanted: its SBN * 65536 + its ESI */
    char text[96];   /* after a fault the line that the program prints, ended by a zero */
} flutejoin_answer;

/* What a datagram contains. `present` is 1 or 0. */
typedef struct flutejoin_packet {
    uint64_t tsi;
    flutejoin_wide toi;
    struct {
        uint32_t present;
        uint32_t id;
    } instance; /* the FDT Instance ID of a packet with the TOI 0 */
    struct {
        uint32_t present;
        uint32_t block;  /* the maximum source block length, in symbols */
        uint64_t length; /* the transfer length */
        uint16_t symbol; /* the encoding symbol length */
    } info;
    struct {
        uint32_t present;
        uint16_t sbn;
        uint16_t esi;
        size_t start; /* where its bytes begin in the datagram */
        size_t length;
    } symbol;
} flutejoin_packet;

/* The name of an object. An FDT Instance has the TOI 0, and nothing else has that. */
typedef struct flutejoin_object {
    flutejoin_wide sender; /* its address; an IPv4 address as 0xFFFF00000000 + the address */
    uint64_t tsi;          /* below 2^48 */
    flutejoin_wide toi;    /* below 2^112 */
    struct {
        uint32_t present; /* 0 if it is none */
        uint32_t id;      /* below 2^20 */
    } instance;
} flutejoin_object;

/* What an entry of a journal says. */
enum flutejoin_entry_kind {
    FLUTEJOIN_ENTRY_INFORMATION = 1,          /* an object's transmission information */
    FLUTEJOIN_ENTRY_INFORMATION_CONFLICT = 2, /* that two values of that came */
    FLUTEJOIN_ENTRY_SYMBOL = 3,               /* an encoding symbol of an object */
    FLUTEJOIN_ENTRY_SYMBOL_CONFLICT = 4       /* that two values of that came */
};

typedef struct flutejoin_entry {
    flutejoin_object object;
    uint32_t kind; /* one of these */
    struct {
        uint32_t present; /* 1 of FLUTEJOIN_ENTRY_INFORMATION, or else 0 */
        uint32_t block;   /* these as a packet has them */
        uint64_t length;
        uint16_t symbol;
    } info;
    struct {
        uint32_t present; /* 1 of the last two kinds, or else 0 */
        uint16_t sbn;
        uint16_t esi;
        size_t start;  /* where its bytes begin in the journal */
        size_t length; /* how many they are; 0 of a conflict */
    } symbol;
} flutejoin_entry;

/* How much of an object is held. */
enum flutejoin_object_status {
    FLUTEJOIN_STATUS_NO_INFORMATION = 1,          /* symbols, and no transmission information */
    FLUTEJOIN_STATUS_CONFLICTING_INFORMATION = 2, /* two values of that */
    FLUTEJOIN_STATUS_PARTIAL = 3,                 /* not all symbols as one fitting value */
    FLUTEJOIN_STATUS_WHOLE = 4
};

typedef struct flutejoin_held {
    uint32_t status;      /* one of these */
    uint64_t length;      /* of a whole object, how many bytes it has; else 0 */
    uint64_t missing;     /* of a partial one, how many symbols are not held; else 0, as below */
    uint64_t conflicting; /* how many have two values */
    uint64_t misfit;      /* how many have one value, of a length that does not fit */
} flutejoin_held;

/* How inputs are joined. Zeros are as the command has it without options. */
typedef struct flutejoin_options {
    flutejoin_wide sender; /* that of the datagrams, as an object has it; journals keep theirs */
    uint32_t any_size;
} flutejoin_options;

/* What was joined, in numbers. */
typedef struct flutejoin_counts {
    uint64_t datagrams; /* how many the datagram files have */
    uint64_t refused;   /* how many of these are no packets, and contain nothing */
    uint64_t entries;   /* how many the journal has */
} flutejoin_counts;

/* Reads a datagram as a packet. FLUTEJOIN_REFUSED: the answer has the number of the refusal. */
uint32_t flutejoin_read(const uint8_t *datagram, size_t length, flutejoin_packet *packet,
                        flutejoin_answer *answer);

/* Gives the journal of all that two journals contain. Its length is at most that of both, or twice
 * that if one of them is of version 1. */
uint32_t flutejoin_merge(const uint8_t *first, size_t first_length, const uint8_t *second,
                         size_t second_length, uint8_t *room, size_t capacity,
                         flutejoin_answer *answer);

/* Gives the journal of what of the first a join would change the second by. */
uint32_t flutejoin_minus(const uint8_t *first, size_t first_length, const uint8_t *second,
                         size_t second_length, uint8_t *room, size_t capacity,
                         flutejoin_answer *answer);

/* Gives the journal of all that two inputs contain, each a journal or a datagram file. If the first
 * has no bytes, the second is the only input, with the number 1. `options` may be NULL, as if they
 * were zeros; `counts` may be NULL, and is as it was after a fault. */
uint32_t flutejoin_join(const uint8_t *first, size_t first_length, const uint8_t *second,
                        size_t second_length, const flutejoin_options *options,
                        flutejoin_counts *counts, uint8_t *room, size_t capacity,
                        flutejoin_answer *answer);

/* Gives what each entry of a journal says, in their order, which is that of `show`: the capacity is
 * a number of entries, and so is `needed`. */
uint32_t flutejoin_entries(const uint8_t *journal, size_t length, flutejoin_entry *room,
                           size_t capacity, flutejoin_answer *answer);

/* Gives the lines that `gaps` prints of a journal; if `json` is not 0, those in JSON. No zero
 * follows them. */
uint32_t flutejoin_gaps(const uint8_t *journal, size_t length, uint32_t any_size, uint32_t json,
                        uint8_t *room, size_t capacity, flutejoin_answer *answer);

/* Gives the journal of what the lines that `gaps` prints of another journal ask for of this one; if
 * `only` is not 0, just what they name as missing. */
uint32_t flutejoin_fill(const uint8_t *journal, size_t length, const uint8_t *lines,
                        size_t lines_length, uint32_t only, uint8_t *room, size_t capacity,
                        flutejoin_answer *answer);

/* Gives the lines that `compare` prints of two journals; if `json` is not 0, those in JSON. No zero
 * follows them. */
uint32_t flutejoin_compare(const uint8_t *first, size_t first_length, const uint8_t *second,
                           size_t second_length, uint32_t json, uint8_t *room, size_t capacity,
                           flutejoin_answer *answer);

/* Gives the bytes of an object that a journal makes whole: not more than the journal has. */
uint32_t flutejoin_extract(const uint8_t *journal, size_t length, const flutejoin_object *object,
                           uint32_t any_size, uint8_t *room, size_t capacity,
                           flutejoin_answer *answer);

/* Tells how much of an object a journal has. It holds the whole journal meanwhile. */
uint32_t flutejoin_status(const uint8_t *journal, size_t length, const flutejoin_object *object,
                          uint32_t any_size, flutejoin_held *held, flutejoin_answer *answer);

#ifdef __cplusplus
}
#endif

#endif
