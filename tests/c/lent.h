/* A store in lent areas, stepped with whole areas. */
#ifndef LENT_H
#define LENT_H

#include "areas.h"
#include "disk.h"

typedef struct {
    uint64_t places, size, entries, chunks;
} settings;

/* The twin is for a copy of the store. */
typedef struct {
    settings settings;
    area store, twin, data, zero, answer;
} lent;

/* An event and what it is told. */
typedef struct {
    uint64_t kind, a, b, c, code, key;
} row;

/* The bytes that every store begins with; then the words of its parts, and where they begin, from docs/LAYOUT.md. */
#define VERSION "DISK0001"
#define VERSION_BYTES 8
#define BUCKETS 16
#define PROXIES 4
/* A table is a count and so many rows. */
#define TABLE_WORDS(rows, row_words) (1 + (rows) * (row_words))
enum {
    WORD_BYTES = 8,
    ENTRY_WORDS = 2,
    HEADER_WORDS = 8,
    BUCKET_WORDS = 8,
    PROXY_WORDS = 1 + TABLE_WORDS(32, ENTRY_WORDS),
    BAG_WORDS = TABLE_WORDS(DISK_MOST_RELAYS, 5),
    PLACES_AT = HEADER_WORDS + BUCKETS * BUCKET_WORDS + PROXIES * PROXY_WORDS + BAG_WORDS,
    /* of a place */
    FLAGS_AT = 1,
    NEXT_AT = FLAGS_AT + 3,
    CEILING_AT = NEXT_AT + 1,
    BUFFER_AT = CEILING_AT + 1,
    COPIES_AT = BUFFER_AT + TABLE_WORDS(32, ENTRY_WORDS)
};

/* A code after it is none. */
#define LAST_CODE DISK_OTHER_KEY

#define NO_KEY 0
#define KEY(id, sequence) ((uint64_t)(id) << 56 | (sequence))
#define WALK(lent, rows) walk((lent), (rows), COUNT(rows))

/* The least settings; the most places; the largest blocks. */
extern const settings least, most_places, largest_blocks;

/* The words of a place, and the length of a store, from docs/LAYOUT.md. */
size_t place_words(settings settings);
size_t length_of(settings settings);

/* A word of a store; words have their least byte first. */
uint64_t word(const area *store, size_t index);
void set_word(area *store, size_t index, uint64_t value);

/* A formatted store with its areas in one position. */
lent formatted(position position, settings settings);
void end(lent *lent);

/* The step, with what every call must keep: a refusal has key 0 and changes no byte, only an accepted get writes the answer area, a get leaves the store,
 * and the store stays sound. */
disk_step_answer step(lent *lent, uint64_t kind, uint64_t a, uint64_t b, uint64_t c);

/* The data that belong to a key; key 0 has zeros. */
void fill_data(uint8_t *bytes, size_t length, uint64_t key);
bool is_data(const uint8_t *bytes, size_t length, uint64_t key);

/* Ends the process where an event is not told what its row says. */
void expect_told(const row *row, disk_step_answer told);

/* One event after the other, each told what its row says. A put brings the data that belong to the key it is told, and an accepted get must show those.
 * A read of a get's block answers the same. The same events in one run, on the twin, are told the same and leave the same bytes. */
void walk(lent *lent, const row *rows, size_t count);

/* One event that must be accepted with key 0. */
void accept(lent *lent, uint64_t kind, uint64_t a, uint64_t b);

/* The whole write of a block by proxy 0, from its put, which is told the key, to its done; its bucket's primary is at place 0, the next brick and the
 * backup at place 1. */
void write_block(lent *lent, uint64_t block, uint64_t key);

#endif
