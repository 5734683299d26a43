/* Two blocks are written, the brick that they were written to crashes and comes back, and the blocks are read again. Each event is shown with its answer.
 * A single event is a call of its own: disk_do. Events that are known together go into one call, disk_do_all, which checks the store once for all of them;
 * so does disk_read for blocks that are read together. */
#include "disk.h"

#include <inttypes.h>
#include <stdio.h>
#include <stdlib.h>
#include <string.h>

enum { PLACES = 3, SIZE = 8, ENTRIES = 2, CHUNKS = 4, BUCKETS = 16 };
enum { PROXY = 0, ONE = 5, TWO = 6, LONGEST_LIST = 2 + 2 * BUCKETS + PLACES + 1 };

/* The data of blocks ONE and TWO. */
static const uint8_t drawings[2 * SIZE] = {'d', 'r', 'a', 'w', 'i', 'n', 'g', '1', 'd', 'r', 'a', 'w', 'i', 'n', 'g', '2'};
static disk_step_answer answers[LONGEST_LIST];
static uint8_t *store;
static size_t length;

/* Shows an event as its line of text, and the code with its text. */
static void show(disk_event event, uint64_t code)
{
    uint8_t line[DISK_LONGEST_LINE];
    disk_line_answer text = disk_print(event.kind, event.a, event.b, event.c, drawings + event.at, SIZE, SIZE, line, sizeof line);
    printf("%-28.*s %2" PRIu64 " %s\n", (int)text.length - 1, (const char *)line, code, disk_code_text(code));
}

static void run(uint64_t kind, uint64_t a)
{
    show((disk_event){kind, a, 0, 0, 0}, disk_do(store, length, kind, a, 0, 0).code);
}

/* None of the lists has a get, so the area for what is read has no bytes. */
static void run_all(const disk_event *events, size_t count)
{
    uint8_t none = 0;
    if (disk_do_all(store, length, events, count, drawings, sizeof drawings, &none, 0, answers) == DISK_UNSOUND)
        exit(1);
    for (size_t i = 0; i < count; i++)
        show(events[i], answers[i].code);
}

/* Reads both blocks, each shown as its get; whether they are the drawings. */
static int read_blocks(void)
{
    const uint64_t blocks[] = {ONE, TWO};
    uint8_t told[2 * (DISK_HEAD_BYTES + SIZE)];
    int right = 1;
    if (disk_read(store, length, PROXY, blocks, 2, told, sizeof told) != DISK_OK)
        exit(1);
    for (size_t i = 0; i < 2; i++) {
        const uint8_t *bytes = disk_answer_bytes(told, SIZE, i);
        show((disk_event){DISK_GET, PROXY, blocks[i], 0, 0}, disk_answer_code(told, SIZE, i));
        if (disk_answer_code(told, SIZE, i) == DISK_OK)
            printf("    key %" PRIu64 ", data \"%.*s\"\n", disk_answer_key(told, SIZE, i), SIZE, (const char *)bytes);
        right = right && memcmp(bytes, drawings + i * SIZE, SIZE) == 0;
    }
    return right;
}

/* The chunks are saved at two bricks, as map asks; then their keys go to the bucket's primary and backup, and once these have saved them the writes are
 * confirmed. The puts are a list of their own: a copy needs the key that its put answers. */
static void write_blocks(void)
{
    const disk_event puts[] = {{DISK_PUT, PROXY, 0, ONE, 0}, {DISK_PUT, PROXY, 0, TWO, SIZE}};
    run_all(puts, 2);
    const disk_event rest[] = {
        {DISK_COPY, answers[0].key, 0, 0, 0}, {DISK_COPY, answers[1].key, 0, 0, 0}, {DISK_SAVELOG, 0, 0, 0, 0}, {DISK_SAVELOG, 1, 0, 0, 0},
        {DISK_MAP, PROXY, ONE, 0, 0},         {DISK_MAP, PROXY, TWO, 0, 0},         {DISK_SEND, ONE, 0, 0, 0},  {DISK_SEND, TWO, 0, 0, 0},
        {DISK_DELIVER, 0, 0, 0, 0},           {DISK_DELIVER, 0, 0, 0, 0},           {DISK_SAVEMAP, 0, 0, 0, 0}, {DISK_SAVEMAP, 1, 0, 0, 0},
        {DISK_DONE, PROXY, ONE, 0, 0},        {DISK_DONE, PROXY, TWO, 0, 0},
    };
    run_all(rest, sizeof rest / sizeof rest[0]);
}

/* The risen brick is a member from the next view on; then each bucket gets its copies, and each place its chunks. */
static void bring_back(uint64_t place)
{
    disk_event events[LONGEST_LIST] = {{DISK_RISE, place, 0, 0, 0}, {DISK_VIEW, 0, 0, 0, 0}}, *next = events + 2;
    for (uint64_t bucket = 0; bucket < BUCKETS; bucket++) {
        *next++ = (disk_event){DISK_FETCH, bucket, 0, 0, 0};
        *next++ = (disk_event){DISK_READY, bucket, 0, 0, 0};
    }
    for (uint64_t each = 0; each < PLACES; each++)
        *next++ = (disk_event){DISK_MEND, each, 0, 0, 0};
    *next = (disk_event){DISK_LEARN, PROXY, 0, 0, 0};
    run_all(events, LONGEST_LIST);
}

int main(void)
{
    length = disk_length(PLACES, SIZE, ENTRIES, CHUNKS);
    store = malloc(length);
    if (store == NULL)
        return 1;
    uint64_t code = disk_format(store, length, PLACES, SIZE, ENTRIES, CHUNKS);
    printf("format of %zu bytes: %s\n", length, disk_code_text(code));
    run(DISK_LEARN, PROXY);
    write_blocks();
    read_blocks();
    run(DISK_CRASH, 0);
    read_blocks();
    bring_back(0);
    int right = read_blocks();
    printf("check: %s\n", disk_check(store, length) == DISK_OK ? "the store is sound" : disk_code_text(DISK_UNSOUND));
    free(store);
    return right ? 0 : 1;
}
