/* The header: the structs as the library lays them out, the names, the texts, and the inline calls. */
#include "lent.h"

#include <string.h>

_Static_assert(sizeof(disk_step_answer) == 16, "two words");
_Static_assert(offsetof(disk_step_answer, code) == 0 && offsetof(disk_step_answer, key) == 8, "in this order");
_Static_assert(sizeof(disk_event) == 40, "five words");
_Static_assert(offsetof(disk_event, kind) == 0 && offsetof(disk_event, a) == 8 && offsetof(disk_event, b) == 16 && offsetof(disk_event, c) == 24 &&
                   offsetof(disk_event, at) == 32,
               "in this order");
_Static_assert(sizeof(disk_event_answer) == 40, "five words");
_Static_assert(offsetof(disk_event_answer, code) == 0 && offsetof(disk_event_answer, kind) == 8 && offsetof(disk_event_answer, a) == 16 &&
                   offsetof(disk_event_answer, b) == 24 && offsetof(disk_event_answer, c) == 32,
               "in this order");
_Static_assert(sizeof(disk_line_answer) == 16, "two words");
_Static_assert(offsetof(disk_line_answer, code) == 0 && offsetof(disk_line_answer, length) == 8, "in this order");
_Static_assert(sizeof(disk_settings_answer) == 40, "five words");
_Static_assert(offsetof(disk_settings_answer, code) == 0 && offsetof(disk_settings_answer, places) == 8 && offsetof(disk_settings_answer, size) == 16 &&
                   offsetof(disk_settings_answer, entries) == 24 && offsetof(disk_settings_answer, chunks) == 32,
               "in this order");

_Static_assert(sizeof(disk_relay) == 40, "five words");
_Static_assert(offsetof(disk_relay, view) == 0 && offsetof(disk_relay, bucket) == 8 && offsetof(disk_relay, order) == 16 &&
                   offsetof(disk_relay, block) == 24 && offsetof(disk_relay, key) == 32,
               "in this order");
_Static_assert(sizeof(disk_bag_answer) == 16, "two words");
_Static_assert(offsetof(disk_bag_answer, code) == 0 && offsetof(disk_bag_answer, count) == 8, "in this order");
_Static_assert(DISK_MOST_BLOCKS == 64 && DISK_HEAD_BYTES == 1 + 8, "of a read");

/* The word at the head of a kind's line is the kind's name in the header. */
static void kinds_have_their_words(void)
{
    static const struct {
        uint64_t kind;
        const char *word;
    } rows[] = {
        {DISK_PUT, "put"}, {DISK_COPY, "copy"}, {DISK_SAVELOG, "savelog"}, {DISK_MAP, "map"}, {DISK_SEND, "send"}, {DISK_DELIVER, "deliver"},
        {DISK_DROP, "drop"}, {DISK_SAVEMAP, "savemap"}, {DISK_DONE, "done"}, {DISK_GET, "get"}, {DISK_ABANDON, "abandon"}, {DISK_LEARN, "learn"},
        {DISK_RESET, "reset"}, {DISK_CRASH, "crash"}, {DISK_LOSE, "lose"}, {DISK_RISE, "rise"}, {DISK_JOIN, "join"}, {DISK_VIEW, "view"},
        {DISK_FETCH, "fetch"}, {DISK_READY, "ready"}, {DISK_MEND, "mend"}, {DISK_COLLECT, "collect"},
    };
    const uint8_t data[8] = {0};
    uint8_t line[64];
    _Static_assert(COUNT(rows) == DISK_KINDS, "a word of each kind");
    for (size_t i = 0; i < COUNT(rows); i++) {
        disk_line_answer told = disk_print(rows[i].kind, 0, 0, 0, data, sizeof data, sizeof data, line, sizeof line);
        size_t length = strlen(rows[i].word);
        EXPECT(rows[i].kind == i + 1 && told.code == DISK_OK && told.length > length);
        EXPECT(memcmp(line, rows[i].word, length) == 0 && (line[length] == ',' || line[length] == '\n'));
    }
    EXPECT(disk_print(DISK_KINDS + 1, 0, 0, 0, data, sizeof data, sizeof data, line, sizeof line).code == DISK_BAD_INPUT);
}

static void every_number_has_a_text(void)
{
    static const uint64_t others[] = {LAST_CODE + 1, LAST_CODE + 2, 255, 256, (uint64_t)1 << 32, UINT64_MAX};
    const char *none = disk_code_text(LAST_CODE + 1);
    for (uint64_t code = DISK_OK; code <= LAST_CODE; code++) {
        EXPECT(strlen(disk_code_text(code)) > 0 && strcmp(disk_code_text(code), none) != 0);
        for (uint64_t other = 0; other < code; other++)
            EXPECT(strcmp(disk_code_text(code), disk_code_text(other)) != 0);
    }
    for (size_t i = 0; i < COUNT(others); i++)
        EXPECT(strcmp(disk_code_text(others[i]), none) == 0);
}

/* The inline calls do what the step does, and refuse a kind whose areas they do not bring. */
static void inline_calls(position position)
{
    lent lent = formatted(position, least);
    uint8_t *store = lent.store.bytes, *answer = lent.answer.bytes;
    size_t length = lent.store.length;
    EXPECT(disk_do(store, length, DISK_LEARN, 0, 0, 0).code == DISK_OK);
    EXPECT(disk_do(store, length, DISK_PUT, 0, 0, 5).code == DISK_BAD_INPUT);
    EXPECT(disk_do(store, length, DISK_GET, 0, 5, 0).code == DISK_BAD_INPUT);
    EXPECT(disk_do(store, length - 8, DISK_VIEW, 0, 0, 0).code == DISK_UNSOUND);
    disk_step_answer put = disk_put(store, length, 0, 0, 5, lent.data.bytes, lent.data.length);
    EXPECT(put.code == DISK_OK && put.key == KEY(1, 0));
    EXPECT(disk_put(store, length, 0, 0, 6, lent.data.bytes, lent.data.length - 1).code == DISK_BAD_INPUT);
    disk_step_answer get = disk_get(store, length, 0, 5, lent.zero.bytes, lent.zero.length, answer, lent.answer.length);
    EXPECT(get.code == DISK_OK && get.key == NO_KEY && memcmp(answer, lent.zero.bytes, lent.answer.length) == 0);
    EXPECT(disk_get(store, length, 0, 5, lent.data.bytes, lent.data.length, answer, lent.answer.length).code == DISK_BAD_INPUT);
    end(&lent);
}

/* The numbers in a block and in a key, and that the library has the same: it refuses a put by another proxy, and a key's home is the brick of its place. */
static void numbers(position position)
{
    static const struct {
        uint64_t block, proxy, bucket;
    } rows[] = {
        {0, 0, 0}, {1023, 0, 0}, {1024, 0, 1}, {15 * 1024, 0, 15}, {16383, 0, 15}, {16384, 0, 0},
        {((uint64_t)1 << 49) - 1, 0, 15}, {(uint64_t)1 << 49, 1, 0}, {((uint64_t)1 << 51) - 1, 3, 15},
    };
    for (size_t i = 0; i < COUNT(rows); i++) {
        lent lent = formatted(position, least);
        uint64_t proxy = disk_block_proxy(rows[i].block), place = i % 3;
        EXPECT(proxy == rows[i].proxy && disk_block_bucket(rows[i].block) == rows[i].bucket);
        EXPECT(disk_put(lent.store.bytes, lent.store.length, (proxy + 1) % 4, place, rows[i].block, lent.data.bytes, lent.data.length).code == DISK_WRONG_PROXY);
        disk_step_answer put = disk_put(lent.store.bytes, lent.store.length, proxy, place, rows[i].block, lent.data.bytes, lent.data.length);
        EXPECT(put.code == DISK_OK && disk_key_home(put.key) == place + 1);
        end(&lent);
    }
}

/* The parts of two answers of a read, no two bytes of which are the same. */
static void parts_of_answers(void)
{
    enum { SIZE = 8, LENGTH = 1 + 8 + SIZE };
    uint8_t answers[2 * LENGTH];
    for (size_t i = 0; i < sizeof answers; i++)
        answers[i] = (uint8_t)(0xf0 + i);
    EXPECT(disk_answer_code(answers, SIZE, 0) == 0xf0 && disk_answer_code(answers, SIZE, 1) == 0x01);
    EXPECT(disk_answer_key(answers, SIZE, 0) == 0xf1f2f3f4f5f6f7f8 && disk_answer_key(answers, SIZE, 1) == 0x0203040506070809);
    EXPECT(disk_answer_bytes(answers, SIZE, 0) == answers + 9 && disk_answer_bytes(answers, SIZE, 1) == answers + LENGTH + 9);
}

int main(void)
{
    kinds_have_their_words();
    every_number_has_a_text();
    parts_of_answers();
    in_every_position(inline_calls);
    in_every_position(numbers);
    return 0;
}
