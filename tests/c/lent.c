#include "lent.h"

#include "list.h"
#include "reads.h"

#include <inttypes.h>
#include <stdio.h>
#include <stdlib.h>
#include <string.h>

const settings least = {3, 8, 2, 4};
const settings most_places = {8, 64, 8, 16};
const settings largest_blocks = {3, 8192, 2, 4};

/* For each bucket a copy in memory and one on disk. */
static size_t copies_words(settings settings)
{
    return BUCKETS * 2 * TABLE_WORDS(settings.entries, ENTRY_WORDS);
}

/* Rows of key and saved, positions, cells. */
static size_t log_words(settings settings)
{
    return TABLE_WORDS(settings.chunks, 2) + settings.chunks + settings.chunks * settings.size / WORD_BYTES;
}

size_t place_words(settings settings)
{
    return COPIES_AT + copies_words(settings) + log_words(settings);
}

size_t length_of(settings settings)
{
    return WORD_BYTES * (PLACES_AT + settings.places * place_words(settings));
}

uint64_t word(const area *store, size_t index)
{
    uint64_t value = 0;
    for (size_t i = WORD_BYTES; i > 0; i--)
        value = value << 8 | store->bytes[WORD_BYTES * index + i - 1];
    return value;
}

void set_word(area *store, size_t index, uint64_t value)
{
    for (size_t i = 0; i < WORD_BYTES; i++)
        store->bytes[WORD_BYTES * index + i] = (uint8_t)(value >> 8 * i);
}

lent formatted(position position, settings settings)
{
    lent lent = {
        settings,
        lend(position, length_of(settings)),
        lend(position, length_of(settings)),
        lend(position, settings.size),
        lend(position, settings.size),
        lend(position, settings.size),
    };
    memset(lent.data.bytes, 0xd1, lent.data.length);
    memset(lent.zero.bytes, 0, lent.zero.length);
    seal(&lent.data);
    seal(&lent.zero);
    EXPECT(disk_format(lent.store.bytes, lent.store.length, settings.places, settings.size, settings.entries, settings.chunks) == DISK_OK);
    return lent;
}

void end(lent *lent)
{
    take_back(&lent->store);
    take_back(&lent->twin);
    take_back(&lent->data);
    take_back(&lent->zero);
    take_back(&lent->answer);
}

static uint64_t sound(const area *store)
{
    seal(store);
    uint64_t code = disk_check(store->bytes, store->length);
    unseal(store);
    return code;
}

disk_step_answer step(lent *lent, uint64_t kind, uint64_t a, uint64_t b, uint64_t c)
{
    area *store = &lent->store, *data = &lent->data, *zero = &lent->zero, *answer = &lent->answer;
    uint8_t *old_store = bytes_of(store), *old_answer = bytes_of(answer);
    disk_step_answer told = disk_step(store->bytes, store->length, kind, a, b, c, data->bytes, data->length, zero->bytes, zero->length, answer->bytes,
                                      answer->length);
    bool accepted = told.code == DISK_OK;
    EXPECT(accepted || told.key == 0);
    EXPECT(same_since(store, old_store) || (accepted && kind != DISK_GET));
    EXPECT(same_since(answer, old_answer) || (accepted && kind == DISK_GET));
    EXPECT(sound(store) == DISK_OK);
    return told;
}

/* Byte i of the data that belong to a key; key 0 has zeros. */
static uint8_t data_byte(uint64_t key, size_t i)
{
    return key == NO_KEY ? 0 : (uint8_t)(1 + 37 * (key >> 56) + 11 * key + 7 * i + i / 256);
}

void fill_data(uint8_t *bytes, size_t length, uint64_t key)
{
    for (size_t i = 0; i < length; i++)
        bytes[i] = data_byte(key, i);
}

bool is_data(const uint8_t *bytes, size_t length, uint64_t key)
{
    for (size_t i = 0; i < length; i++)
        if (bytes[i] != data_byte(key, i))
            return false;
    return true;
}

void expect_told(const row *row, disk_step_answer told)
{
    if (told.code == row->code && told.key == row->key)
        return;
    fprintf(stderr, "event %" PRIu64 ",%" PRIu64 ",%" PRIu64 ",%" PRIu64 " is told %" PRIu64 " (%s), key %" PRIu64 "; expected %" PRIu64 ", key %" PRIu64 "\n",
            row->kind, row->a, row->b, row->c, told.code, disk_code_text(told.code), told.key, row->code, row->key);
    exit(1);
}

static void walk_one(lent *lent, const row *row)
{
    unseal(&lent->data);
    fill_data(lent->data.bytes, lent->data.length, row->key);
    seal(&lent->data);
    expect_told(row, step(lent, row->kind, row->a, row->b, row->c));
    if (row->kind != DISK_GET)
        return;
    EXPECT(row->code != DISK_OK || is_data(lent->answer.bytes, lent->answer.length, row->key));
    read_rows(&lent->store, lent->settings, row, 1, length_of_answers(lent->settings, 1));
}

void walk(lent *lent, const row *rows, size_t count)
{
    memcpy(lent->twin.bytes, lent->store.bytes, lent->store.length);
    run_rows(&lent->twin, lent->settings, rows, count);
    for (const row *row = rows; row < rows + count; row++)
        walk_one(lent, row);
    EXPECT(same_since(&lent->store, bytes_of(&lent->twin)));
}

void accept(lent *lent, uint64_t kind, uint64_t a, uint64_t b)
{
    row row = {kind, a, b, 0, DISK_OK, NO_KEY};
    walk(lent, &row, 1);
}

void write_block(lent *lent, uint64_t block, uint64_t key)
{
    const row rows[] = {
        {DISK_PUT, 0, 0, block, DISK_OK, key},    {DISK_COPY, key, 0, 0, DISK_OK, NO_KEY},  {DISK_SAVELOG, 0, 0, 0, DISK_OK, NO_KEY},
        {DISK_SAVELOG, 1, 0, 0, DISK_OK, NO_KEY}, {DISK_MAP, 0, block, 0, DISK_OK, NO_KEY}, {DISK_SEND, block, 0, 0, DISK_OK, NO_KEY},
        {DISK_DELIVER, 0, 0, 0, DISK_OK, 1},      {DISK_SAVEMAP, 0, 0, 0, DISK_OK, NO_KEY}, {DISK_SAVEMAP, 1, 0, 0, DISK_OK, NO_KEY},
        {DISK_DONE, 0, block, 0, DISK_OK, NO_KEY},
    };
    WALK(lent, rows);
}
