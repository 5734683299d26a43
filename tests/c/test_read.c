/* Many blocks in one read: numbers of blocks, lengths of the area, refused blocks among others, blocks named twice, the bytes of an answer. That a read of
 * one block answers what a get does is part of every walk. */
#include "reads.h"

#include <string.h>

#define BLOCKS ((uint64_t)1 << 51)
#define PROXY_BLOCKS ((uint64_t)1 << 49)
#define IN_BUCKET(bucket) ((uint64_t)(bucket) << 10)
#define READ(lent, rows) read_rows(&(lent)->store, (lent)->settings, (rows), COUNT(rows), length_of_answers((lent)->settings, COUNT(rows)))

enum { MOST = 64, TOO_MANY = MOST + 2 };

/* A sequence number with which all bytes of a key of brick 1 differ. */
#define SEQUENCE ((uint64_t)0x02030405060708)

static const row shown = {DISK_GET, 0, 5, 0, DISK_OK, KEY(1, SEQUENCE)};

/* A store in which block 5 is shown; the numbers of the brick at place 0 are written by hand. */
static lent written(position position, settings settings)
{
    lent lent = formatted(position, settings);
    set_word(&lent.store, PLACES_AT + NEXT_AT, SEQUENCE);
    set_word(&lent.store, PLACES_AT + CEILING_AT, SEQUENCE + 1);
    accept(&lent, DISK_LEARN, 0, 0);
    write_block(&lent, shown.b, shown.key);
    return lent;
}

/* Gets that are shown, not mapped and refused, in turns: a block is named many times, and twice in a row. */
static void some_gets(row *rows, size_t count)
{
    const row turns[] = {
        shown,
        {DISK_GET, 0, 6, 0, DISK_OK, NO_KEY},
        {DISK_GET, 0, PROXY_BLOCKS, 0, DISK_WRONG_PROXY, NO_KEY},
        {DISK_GET, 0, BLOCKS, 0, DISK_BAD_INPUT, NO_KEY},
        shown,
    };
    for (size_t i = 0; i < count; i++)
        rows[i] = turns[i % COUNT(turns)];
}

/* Every length of the area near the one that the answers have, none, one, and much more. */
static void lengths(const lent *lent, const row *rows, size_t count)
{
    size_t needed = length_of_answers(lent->settings, count), more = length_of_answers(lent->settings, 1);
    const size_t others[] = {0, 1, needed / 2, needed + more - 1, needed + more};
    for (size_t length = needed < 2 ? 0 : needed - 2; length <= needed + 2; length++)
        read_rows(&lent->store, lent->settings, rows, count, length);
    for (size_t i = 0; i < COUNT(others); i++)
        read_rows(&lent->store, lent->settings, rows, count, others[i]);
}

static void counts_and_lengths(position position, settings settings)
{
    static const size_t counts[] = {0, 1, 2, 3, MOST - 1, MOST, MOST + 1, TOO_MANY};
    lent lent = written(position, settings);
    row rows[TOO_MANY];
    some_gets(rows, TOO_MANY);
    for (size_t i = 0; i < COUNT(counts); i++)
        lengths(&lent, rows, counts[i]);
    end(&lent);
}

/* A list of no blocks looks at the store alone. */
static void no_blocks(position position)
{
    lent lent = formatted(position, least);
    for (size_t length = 0; length <= 1; length++) {
        reading reading = new_reading(position, 0, length);
        close_off(&reading.blocks);
        close_off(&reading.answers);
        EXPECT(read_blocks(&lent.store, 0, &reading) == DISK_OK && read_blocks(&lent.store, UINT64_MAX, &reading) == DISK_OK);
        unseal(&reading.blocks);
        unseal(&reading.answers);
        end_reading(&reading);
    }
    end(&lent);
}

/* The code, the key with its high byte first, and the block's bytes; of a refused block zeros after the code. */
static void bytes_of_an_answer(position position)
{
    uint8_t expected[2 * (9 + 8)] = {DISK_OK, 1, 2, 3, 4, 5, 6, 7, 8, [9 + 8] = DISK_WRONG_PROXY};
    lent lent = written(position, least);
    reading reading = new_reading(position, 2, sizeof expected);
    fill_data(expected + 9, 8, shown.key);
    set_block(&reading, 0, shown.b);
    set_block(&reading, 1, PROXY_BLOCKS);
    EXPECT(read_blocks(&lent.store, 0, &reading) == DISK_OK && memcmp(reading.answers.bytes, expected, sizeof expected) == 0);
    end_reading(&reading);
    end(&lent);
}

/* A proxy out of range refuses each block with 3, and so not the call. */
static void proxies_out_of_range(position position)
{
    static const uint64_t proxies[] = {4, 5, 256, (uint64_t)1 << 32, UINT64_MAX};
    lent lent = written(position, least);
    for (size_t i = 0; i < COUNT(proxies); i++) {
        const row rows[] = {
            {DISK_GET, proxies[i], 5, 0, DISK_BAD_INPUT, NO_KEY},
            {DISK_GET, proxies[i], 4 * PROXY_BLOCKS, 0, DISK_BAD_INPUT, NO_KEY},
            {DISK_GET, proxies[i], 5, 0, DISK_BAD_INPUT, NO_KEY},
        };
        WALK(&lent, rows);
        READ(&lent, rows);
    }
    end(&lent);
}

/* A brick goes, a blank one comes, and in the new view buckets 0 and 3 are ready; nothing is mended. */
static void replace(lent *lent, uint64_t place)
{
    accept(lent, DISK_LOSE, place, 0);
    accept(lent, DISK_JOIN, place, 0);
    accept(lent, DISK_VIEW, 0, 0);
    for (uint64_t bucket = 0; bucket <= 3; bucket += 3) {
        accept(lent, DISK_FETCH, bucket, 0);
        accept(lent, DISK_READY, bucket, 0);
    }
}

/* Both bricks that hold the chunk of block 5 are replaced. Then block 6 of the same bucket is written, a block of bucket 3 is mapped and not sent, and the
 * primary of bucket 1 crashes. The pairs are (4, 5) for buckets 0, 3 and 6 and (3, 4) for bucket 1. */
static lent with_every_refusal(position position)
{
    static const row pending[] = {
        {DISK_PUT, 0, 0, IN_BUCKET(3), DISK_OK, KEY(4, 1)}, {DISK_COPY, KEY(4, 1), 0, 0, DISK_OK, NO_KEY}, {DISK_SAVELOG, 0, 0, 0, DISK_OK, NO_KEY},
        {DISK_SAVELOG, 1, 0, 0, DISK_OK, NO_KEY},           {DISK_MAP, 0, IN_BUCKET(3), 0, DISK_OK, NO_KEY},
    };
    lent lent = written(position, least);
    replace(&lent, 0);
    replace(&lent, 1);
    accept(&lent, DISK_LEARN, 0, 0);
    write_block(&lent, 6, KEY(4, 0));
    WALK(&lent, pending);
    accept(&lent, DISK_CRASH, 2, 0);
    return lent;
}

/* Every number that a get of a sound store is refused with, in one read with what is shown; a proxy that has not learned the view has one more. */
static void refused_among_others(position position)
{
    static const row rows[] = {
        {DISK_GET, 0, 6, 0, DISK_OK, KEY(4, 0)},
        {DISK_GET, 0, 5, 0, DISK_NO_CHUNK, NO_KEY},
        {DISK_GET, 0, IN_BUCKET(3), 0, DISK_PENDING, NO_KEY},
        {DISK_GET, 0, 7, 0, DISK_OK, NO_KEY},
        {DISK_GET, 0, IN_BUCKET(6), 0, DISK_NOT_READY, NO_KEY},
        {DISK_GET, 0, 6, 0, DISK_OK, KEY(4, 0)},
        {DISK_GET, 0, IN_BUCKET(1), 0, DISK_NO_MEMBER, NO_KEY},
        {DISK_GET, 0, PROXY_BLOCKS - 1, 0, DISK_NO_MEMBER, NO_KEY},
        {DISK_GET, 0, PROXY_BLOCKS, 0, DISK_WRONG_PROXY, NO_KEY},
        {DISK_GET, 0, BLOCKS - 1, 0, DISK_WRONG_PROXY, NO_KEY},
        {DISK_GET, 0, BLOCKS, 0, DISK_BAD_INPUT, NO_KEY},
        {DISK_GET, 0, UINT64_MAX, 0, DISK_BAD_INPUT, NO_KEY},
        {DISK_GET, 0, 6, 0, DISK_OK, KEY(4, 0)},
    };
    static const row of_another_proxy[] = {
        {DISK_GET, 3, BLOCKS - 1, 0, DISK_VIEW_UNKNOWN, NO_KEY},
        {DISK_GET, 3, 6, 0, DISK_WRONG_PROXY, NO_KEY},
        {DISK_GET, 3, BLOCKS, 0, DISK_BAD_INPUT, NO_KEY},
    };
    lent lent = with_every_refusal(position);
    WALK(&lent, rows);
    READ(&lent, rows);
    WALK(&lent, of_another_proxy);
    READ(&lent, of_another_proxy);
    end(&lent);
}

static void reads(position position)
{
    counts_and_lengths(position, least);
    counts_and_lengths(position, most_places);
    no_blocks(position);
    bytes_of_an_answer(position);
    proxies_out_of_range(position);
    refused_among_others(position);
}

int main(void)
{
    in_every_position(reads);
    counts_and_lengths((position){AT_END, 0}, largest_blocks);
    counts_and_lengths((position){AT_START, 1}, largest_blocks);
    return 0;
}
