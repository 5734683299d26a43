/* Length, format, check and alike, and the rules' examples of settings and pairs. */
#include "lent.h"

#include <string.h>

static uint64_t format(area *store, settings s)
{
    return disk_format(store->bytes, store->length, s.places, s.size, s.entries, s.chunks);
}

static uint64_t alike(const area *store, const area *other)
{
    seal(store);
    seal(other);
    uint64_t number = disk_alike(store->bytes, store->length, other->bytes, other->length);
    unseal(store);
    unseal(other);
    return number;
}

static void lengths(void)
{
    static const settings within[] = {
        {3, 8, 2, 4}, {8, 8, 2, 4}, {3, 8192, 2, 4}, {3, 8, 1024, 4}, {3, 8, 2, 65536}, {8, 8192, 1024, 65536}, {5, 64, 8, 16},
    };
    static const settings outside[] = {
        {2, 8, 2, 4}, {9, 8, 2, 4}, {3, 0, 2, 4}, {3, 12, 2, 4}, {3, 8200, 2, 4}, {3, 8, 1, 4}, {3, 8, 1025, 4}, {3, 8, 2, 3}, {3, 8, 2, 65537},
        {UINT64_MAX, UINT64_MAX, UINT64_MAX, UINT64_MAX}, {3, UINT64_MAX - 7, 2, 4}, {0, 0, 0, 0},
    };
    for (size_t i = 0; i < COUNT(within); i++)
        EXPECT(disk_length(within[i].places, within[i].size, within[i].entries, within[i].chunks) == length_of(within[i]));
    for (size_t i = 0; i < COUNT(outside); i++)
        EXPECT(disk_length(outside[i].places, outside[i].size, outside[i].entries, outside[i].chunks) == 0);
}

static void format_refused(position position)
{
    static const settings outside[] = {{2, 8, 2, 4}, {9, 8, 2, 4}, {3, 12, 2, 4}, {3, 8, 1, 4}, {3, 8, 2, 3}};
    const size_t whole = length_of(least);
    const size_t lengths[] = {0, 1, 7, 8, whole - 8, whole - 1, whole + 1, whole + 8};
    area store = lend(position, whole);
    for (size_t i = 0; i < COUNT(outside); i++) {
        uint8_t *old = bytes_of(&store);
        EXPECT(format(&store, outside[i]) == DISK_BAD_SETTINGS && same_since(&store, old));
    }
    take_back(&store);
    for (size_t i = 0; i < COUNT(lengths); i++) {
        store = lend(position, lengths[i]);
        uint8_t *old = bytes_of(&store);
        EXPECT(format(&store, least) == DISK_BAD_SETTINGS && same_since(&store, old));
        take_back(&store);
    }
}

/* The primary and the backup of a bucket, as docs/LAYOUT.md places them. */
static bool pair_is(const lent *lent, size_t bucket, uint64_t primary, uint64_t backup)
{
    size_t at = HEADER_WORDS + BUCKET_WORDS * bucket;
    return word(&lent->store, at) == primary && word(&lent->store, at + 1) == backup;
}

static void pairs(position position)
{
    static const uint64_t of_three[3][2] = {{1, 2}, {3, 1}, {2, 3}};
    lent lent = formatted(position, least);
    for (size_t bucket = 0; bucket < BUCKETS; bucket++)
        EXPECT(pair_is(&lent, bucket, of_three[bucket % 3][0], of_three[bucket % 3][1]));
    accept(&lent, DISK_LOSE, 1, 0);
    accept(&lent, DISK_VIEW, 0, 0);
    EXPECT(pair_is(&lent, 0, 1, 3) && pair_is(&lent, 1, 3, 1) && pair_is(&lent, 2, 3, 1));
    end(&lent);
}

/* A write makes two stores differ once its key is in the primary's memory, and not before. */
static void likeness(position position)
{
    lent one = formatted(position, least), other = formatted(position, least), wider = formatted(position, most_places);
    const row put[] = {
        {DISK_LEARN, 0, 0, 0, DISK_OK, NO_KEY},   {DISK_PUT, 0, 0, 5, DISK_OK, KEY(1, 0)},  {DISK_COPY, KEY(1, 0), 0, 0, DISK_OK, NO_KEY},
        {DISK_SAVELOG, 0, 0, 0, DISK_OK, NO_KEY}, {DISK_SAVELOG, 1, 0, 0, DISK_OK, NO_KEY},
    };
    EXPECT(alike(&one.store, &other.store) == 0 && alike(&one.store, &one.store) == 0 && alike(&one.store, &wider.store) == 1);
    WALK(&one, put);
    EXPECT(alike(&one.store, &other.store) == 0);
    accept(&one, DISK_MAP, 0, 5);
    EXPECT(alike(&one.store, &other.store) == 1 && alike(&other.store, &one.store) == 1);
    WALK(&other, put);
    accept(&other, DISK_MAP, 0, 5);
    EXPECT(alike(&one.store, &other.store) == 0);
    accept(&other, DISK_CRASH, 2, 0);
    EXPECT(alike(&one.store, &other.store) == 1);
    accept(&other, DISK_RISE, 2, 0);
    accept(&other, DISK_VIEW, 0, 0);
    EXPECT(alike(&one.store, &other.store) == 1);
    set_word(&wider.store, 1, 9);
    EXPECT(alike(&one.store, &wider.store) == 2 && alike(&wider.store, &one.store) == 2);
    EXPECT(disk_alike(one.store.bytes, one.store.length, other.store.bytes, 0) == 2);
    end(&one);
    end(&other);
    end(&wider);
}

int main(void)
{
    lengths();
    in_every_position(format_refused);
    in_every_position(pairs);
    in_every_position(likeness);
    return 0;
}
