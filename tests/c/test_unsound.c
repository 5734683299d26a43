/* Bytes that are no sound store: every call on them answers 2, and no byte changes. */
#include "list.h"
#include "reads.h"

#include <stdlib.h>
#include <string.h>

/* A list of all kinds, of right and of wrong lengths. */
static void run_unsound(area *store)
{
    list list = new_list(store->position, DISK_COLLECT + 1, 64, 64);
    for (uint64_t kind = 0; kind <= DISK_COLLECT; kind++)
        set_event(&list, kind, (disk_event){kind, 0, 0, 5, 8 * (kind % 8)});
    size_t event_words = list.events.length / 8, answer_words = list.answers.length / 8;
    run_refused(store, &list, event_words, answer_words, DISK_UNSOUND);
    run_refused(store, &list, event_words - 1, answer_words, DISK_UNSOUND);
    run_refused(store, &list, event_words, answer_words - 2, DISK_UNSOUND);
    run_refused(store, &list, 0, 0, DISK_UNSOUND);
    end_list(&list);
}

/* Reads with too short, enough and more room, of no block and of too many. */
static void read_unsound(const area *store)
{
    static const size_t counts[] = {0, 1, DISK_MOST_BLOCKS + 1};
    for (size_t i = 0; i < COUNT(counts); i++) {
        size_t enough = length_of_answers(least, counts[i]);
        read_refused(store, counts[i], 0, DISK_UNSOUND);
        read_refused(store, counts[i], enough, DISK_UNSOUND);
        read_refused(store, counts[i], enough + 1, DISK_UNSOUND);
    }
}

/* Every kind, and numbers that are none, on bytes that are no sound store. */
static void expect_unsound(lent *lent, area *store)
{
    uint8_t *old = bytes_of(store), *old_answer = bytes_of(&lent->answer);
    EXPECT(disk_check(store->bytes, store->length) == DISK_UNSOUND);
    EXPECT(disk_alike(store->bytes, store->length, lent->store.bytes, lent->store.length) == DISK_UNSOUND);
    disk_relay relay = {0, 1, 2, 3, 4};
    disk_bag_answer bag = disk_bag(store->bytes, store->length, &relay, 1);
    EXPECT(bag.code == DISK_UNSOUND && bag.count == 0 && relay.view == 0 && relay.bucket == 1 && relay.order == 2 && relay.block == 3 && relay.key == 4);
    for (uint64_t kind = 0; kind <= DISK_COLLECT + 1; kind++) {
        disk_step_answer told = disk_step(store->bytes, store->length, kind, 0, 0, 5, lent->data.bytes, lent->data.length, lent->zero.bytes,
                                          lent->zero.length, lent->answer.bytes, lent->answer.length);
        EXPECT(told.code == DISK_UNSOUND && told.key == NO_KEY);
    }
    run_unsound(store);
    read_unsound(store);
    EXPECT(same_since(store, old) && same_since(&lent->answer, old_answer));
}

/* A store's first bytes, with bytes after them that are not its own. */
static void of_length(lent *lent, position position, size_t length)
{
    area store = lend(position, length);
    for (size_t i = 0; i < length; i++)
        store.bytes[i] = i < lent->store.length ? lent->store.bytes[i] : 0;
    expect_unsound(lent, &store);
    take_back(&store);
}

static void other_lengths(position position)
{
    lent lent = formatted(position, least);
    size_t whole = lent.store.length;
    for (size_t length = 0; length <= 64; length++)
        of_length(&lent, position, length);
    for (size_t length = whole - 9; length <= whole + 9; length++)
        if (length != whole)
            of_length(&lent, position, length);
    end(&lent);
}

/* The words in use of a fresh store of three places: the header, the buckets, a view and a count for each proxy, the bag's count; and for each place its id,
 * flags and numbers, and the counts of its buffer, its copies and its log. */
enum {
    COUNTS = 1 + 2 * BUCKETS + 1,
    IN_USE = HEADER_WORDS + BUCKETS * BUCKET_WORDS + PROXIES * 2 + 1 + 3 * (BUFFER_AT + COUNTS)
};

/* One word at a time becomes a number that is in no range. In a word in use it makes the store unsound; no rule reads the others. */
static void damaged_words(position position)
{
    static const uint64_t wild[] = {UINT64_MAX, (uint64_t)1 << 63};
    lent lent = formatted(position, least), damaged = formatted(position, least);
    size_t found = 0;
    for (size_t i = 0; i < damaged.store.length / WORD_BYTES; i++) {
        uint64_t good = word(&damaged.store, i);
        set_word(&damaged.store, i, wild[i % COUNT(wild)]);
        if (disk_check(damaged.store.bytes, damaged.store.length) != DISK_OK) {
            expect_unsound(&lent, &damaged.store);
            found++;
        }
        set_word(&damaged.store, i, good);
    }
    EXPECT(found == IN_USE && disk_check(damaged.store.bytes, damaged.store.length) == DISK_OK);
    end(&lent);
    end(&damaged);
}

/* Settings that call for the most bytes, in a header with nothing behind it. */
static void header_alone(position position)
{
    lent lent = formatted(position, least);
    area store = lend(position, HEADER_WORDS * WORD_BYTES);
    static const uint64_t header[] = {8, 8192, 1024, 65536, 1, 8, 8};
    memcpy(store.bytes, VERSION, VERSION_BYTES);
    for (size_t i = 0; i < COUNT(header); i++)
        set_word(&store, 1 + i, header[i]);
    expect_unsound(&lent, &store);
    take_back(&store);
    end(&lent);
}

/* A store whose first word is not the version: one bit changed, or the bytes in the other order. */
static void other_versions(position position)
{
    lent lent = formatted(position, least), other = formatted(position, least);
    EXPECT(memcmp(other.store.bytes, VERSION, VERSION_BYTES) == 0);
    for (size_t bit = 0; bit < 64; bit++) {
        uint8_t good = other.store.bytes[bit / 8];
        other.store.bytes[bit / 8] = good ^ (uint8_t)(1 << bit % 8);
        expect_unsound(&lent, &other.store);
        other.store.bytes[bit / 8] = good;
    }
    for (size_t i = 0; i < VERSION_BYTES; i++)
        other.store.bytes[i] = (uint8_t)VERSION[VERSION_BYTES - 1 - i];
    expect_unsound(&lent, &other.store);
    end(&lent);
    end(&other);
}

/* A store of the layout that had no version: all words but the first, at their length then and at that of now. */
static void older_layout(position position)
{
    lent lent = formatted(position, least);
    size_t then = lent.store.length - VERSION_BYTES;
    for (size_t length = then; length <= lent.store.length; length += VERSION_BYTES) {
        area store = lend(position, length);
        memset(store.bytes, 0, length);
        memcpy(store.bytes, lent.store.bytes + VERSION_BYTES, then);
        expect_unsound(&lent, &store);
        take_back(&store);
    }
    end(&lent);
}

static void random_bytes(position position)
{
    lent lent = formatted(position, least);
    for (int i = 0; i < 20; i++) {
        area store = lend(position, lent.store.length);
        for (size_t byte = 0; byte < store.length; byte++)
            store.bytes[byte] = (uint8_t)rand();
        expect_unsound(&lent, &store);
        take_back(&store);
    }
    end(&lent);
}

static void unsound(position position)
{
    other_lengths(position);
    header_alone(position);
    other_versions(position);
    older_layout(position);
    random_bytes(position);
}

int main(void)
{
    in_every_position(unsound);
    damaged_words((position){AT_END, 0});
    damaged_words((position){AT_START, 1});
    return 0;
}
