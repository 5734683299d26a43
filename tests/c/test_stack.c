/* The stack that each call takes: every kind of event, one by one and in one run, and every other call, on a stack of just DISK_STACK_BYTES. With DISK_STACK=1
 * it prints the kind or the call, and the most bytes that it took. */
#define _GNU_SOURCE
#include "list.h"

#include <stdio.h>
#include <stdlib.h>
#include <string.h>
#include <sys/mman.h>
#include <ucontext.h>
#include <unistd.h>

/* What the stack is filled with; what is left to a caller's own frames; the bytes below the stack, which nobody may touch: many, since a large frame may
 * skip some. */
enum { FILL = 0xa7, MARGIN = 512, GUARD = 1 << 20 };

/* ---- a stack of an exact size
 * A context of its own begins at the very end of the stack that it is given; on a thread's, the C library has data of its own. The stack is mapped twice:
 * what a call has left is looked at through the other mapping, since valgrind takes a read below the top of a stack for a mistake. */
static uint8_t *stack, *seen;

static void make_stack(void)
{
    int file = memfd_create("stack", 0);
    EXPECT(file >= 0 && ftruncate(file, DISK_STACK_BYTES) == 0);
    uint8_t *guard = mmap(NULL, GUARD + DISK_STACK_BYTES, PROT_NONE, MAP_PRIVATE | MAP_ANONYMOUS, -1, 0);
    EXPECT(guard != MAP_FAILED);
    stack = mmap(guard + GUARD, DISK_STACK_BYTES, PROT_READ | PROT_WRITE, MAP_SHARED | MAP_FIXED, file, 0);
    seen = mmap(NULL, DISK_STACK_BYTES, PROT_READ | PROT_WRITE, MAP_SHARED, file, 0);
    EXPECT(stack == guard + GUARD && seen != MAP_FAILED && close(file) == 0);
}

/* How many bytes, from the end of the stack to the farthest one written, a task takes. */
static size_t bytes_taken(void (*task)(void))
{
    static ucontext_t here, there;
    memset(seen, FILL, DISK_STACK_BYTES);
    EXPECT(getcontext(&there) == 0);
    there.uc_stack.ss_sp = stack;
    there.uc_stack.ss_size = DISK_STACK_BYTES;
    there.uc_link = &here;
    makecontext(&there, task, 0);
    EXPECT(swapcontext(&here, &there) == 0);
    size_t free = 0;
    while (free < DISK_STACK_BYTES && seen[free] == FILL)
        free++;
    return DISK_STACK_BYTES - free;
}

static void nothing(void)
{
}

/* What the one call takes that a task makes, besides what an empty task takes; it leaves the margin. */
static size_t measure(void (*task)(void))
{
    size_t own = bytes_taken(nothing), taken = bytes_taken(task);
    EXPECT(own <= MARGIN && taken - own <= DISK_STACK_BYTES - MARGIN);
    return taken - own;
}

static void print_taken(const char *name, size_t bytes)
{
    if (getenv("DISK_STACK") != NULL)
        printf("%s %zu\n", name, bytes);
}

/* ---- events */

static const settings life_settings = {3, 8192, 4, 4};

/* What a task works on, and what it is told. */
static lent on;
static row event;
static disk_step_answer told;
static list events;
static uint64_t code;

static void step_task(void)
{
    told = disk_step(on.store.bytes, on.store.length, event.kind, event.a, event.b, event.c, on.data.bytes, on.data.length, on.zero.bytes, on.zero.length,
                     on.answer.bytes, on.answer.length);
}

static void run_task(void)
{
    code = run(&on.twin, &events);
}

#define VIEW_OF(bucket) {DISK_FETCH, bucket, 0, 0, DISK_OK, NO_KEY}, {DISK_READY, bucket, 0, 0, DISK_OK, NO_KEY}
#define FOUR_OF(bucket) VIEW_OF(bucket), VIEW_OF(bucket + 1), VIEW_OF(bucket + 2), VIEW_OF(bucket + 3)
#define NEW_VIEW                                                                                                                                               \
    {DISK_VIEW, 0, 0, 0, DISK_OK, NO_KEY}, FOUR_OF(0), FOUR_OF(4), FOUR_OF(8), FOUR_OF(12), {DISK_LEARN, 0, 0, 0, DISK_OK, NO_KEY}
/* A block written, its chunk at place 0 and another, which is the backup's too. */
#define WRITE(block, other, key)                                                                                                                               \
    {DISK_PUT, 0, 0, block, DISK_OK, key}, {DISK_COPY, key, 0, 0, DISK_OK, NO_KEY}, {DISK_SAVELOG, 0, 0, 0, DISK_OK, NO_KEY},                                  \
        {DISK_SAVELOG, other, 0, 0, DISK_OK, NO_KEY}, {DISK_MAP, 0, block, 0, DISK_OK, NO_KEY}, {DISK_SEND, block, 0, 0, DISK_OK, NO_KEY},                     \
        {DISK_DELIVER, 0, 0, 0, DISK_OK, 1}, {DISK_SAVEMAP, 0, 0, 0, DISK_OK, NO_KEY}, {DISK_SAVEMAP, other, 0, 0, DISK_OK, NO_KEY},                           \
        {DISK_DONE, 0, block, 0, DISK_OK, NO_KEY}

/* Every kind is accepted. The first mend brings two chunks. At the second the log has 2 of 4 chunks and there are 3 named, so it counts what would be added:
 * one, which it brings. Each collect removes a chunk. */
static const row life[] = {
    {DISK_LEARN, 0, 0, 0, DISK_OK, NO_KEY},
    {DISK_GET, 0, 5, 0, DISK_OK, NO_KEY},
    WRITE(5, 1, KEY(1, 0)),
    WRITE(6, 1, KEY(1, 1)),
    {DISK_CRASH, 1, 0, 0, DISK_OK, NO_KEY},
    NEW_VIEW,
    {DISK_MEND, 2, 0, 0, DISK_OK, NO_KEY},
    WRITE(7, 2, KEY(1, 2)),
    {DISK_GET, 0, 7, 0, DISK_OK, KEY(1, 2)},
    {DISK_RISE, 1, 0, 0, DISK_OK, NO_KEY},
    NEW_VIEW,
    {DISK_MEND, 1, 0, 0, DISK_OK, NO_KEY},
    {DISK_SEND, 7, 0, 0, DISK_OK, NO_KEY},
    {DISK_DROP, 0, 0, 0, DISK_OK, NO_KEY},
    {DISK_PUT, 0, 2, 8, DISK_OK, KEY(3, 0)},
    {DISK_ABANDON, 0, 8, 0, DISK_OK, NO_KEY},
    {DISK_PUT, 0, 0, 8, DISK_OK, KEY(1, 3)},
    {DISK_RESET, 0, 0, 0, DISK_OK, NO_KEY},
    {DISK_COLLECT, 0, 0, 0, DISK_OK, NO_KEY},
    {DISK_COLLECT, 2, 0, 0, DISK_OK, NO_KEY},
    {DISK_LOSE, 2, 0, 0, DISK_OK, NO_KEY},
    {DISK_JOIN, 2, 0, 0, DISK_OK, NO_KEY},
};

/* The most bytes that a step of each kind took. */
static size_t most[DISK_KINDS + 1];

static void one_by_one(void)
{
    for (size_t i = 0; i < COUNT(life); i++) {
        event = life[i];
        unseal(&on.data);
        fill_data(on.data.bytes, on.data.length, event.key);
        seal(&on.data);
        size_t bytes = measure(step_task);
        expect_told(&event, told);
        most[event.kind] = bytes > most[event.kind] ? bytes : most[event.kind];
    }
}

static void every_kind(void)
{
    for (int kind = 1; kind <= DISK_KINDS; kind++) {
        char name[12];
        snprintf(name, sizeof name, "%d", kind);
        EXPECT(most[kind] > 0);
        print_taken(name, most[kind]);
    }
}

static void in_one_run(void)
{
    events = list_of(on.twin.position, life_settings.size, life, COUNT(life));
    size_t bytes = measure(run_task);
    EXPECT(code == DISK_OK);
    for (size_t i = 0; i < COUNT(life); i++)
        expect_told(&life[i], answer(&events, i));
    end_list(&events);
    print_taken("disk_run", bytes);
}

/* ---- the other calls */

enum { MOST_ANSWERS = DISK_MOST_BLOCKS * (DISK_HEAD_BYTES + 8192) };

static uint64_t blocks[DISK_MOST_BLOCKS] = {5, 6, 7};
static uint8_t answers[MOST_ANSWERS], line[DISK_LONGEST_LINE], block[8192];
static disk_relay relays[DISK_MOST_RELAYS];
static disk_line_answer printed;

static void length_task(void)
{
    code = disk_length(life_settings.places, life_settings.size, life_settings.entries, life_settings.chunks) != on.store.length;
}

static void format_task(void)
{
    code = disk_format(on.twin.bytes, on.twin.length, life_settings.places, life_settings.size, life_settings.entries, life_settings.chunks);
}

static void check_task(void)
{
    code = disk_check(on.store.bytes, on.store.length);
}

static void alike_task(void)
{
    code = disk_alike(on.store.bytes, on.store.length, on.twin.bytes, on.twin.length);
}

static void read_task(void)
{
    code = disk_read(on.store.bytes, on.store.length, 0, blocks, DISK_MOST_BLOCKS, answers, MOST_ANSWERS);
}

static void bag_task(void)
{
    code = disk_bag(on.store.bytes, on.store.length, relays, DISK_MOST_RELAYS).code;
}

static void print_task(void)
{
    printed = disk_print(DISK_PUT, 3, 7, (uint64_t)1 << 50, block, sizeof block, sizeof block, line, sizeof line);
    code = printed.code;
}

static void parse_task(void)
{
    code = disk_parse(line, printed.length, sizeof block, block, sizeof block).code;
}

static void parse_settings_task(void)
{
    static const uint8_t text[] = {'3', ',', '8', '1', '9', '2', ',', '4', ',', '4', '\n'};
    code = disk_parse_settings(text, sizeof text).code;
}

/* Alike before the twin is formatted again, parse of what print has written. */
static void other_calls(void)
{
    static const struct {
        const char *name;
        void (*task)(void);
    } calls[] = {
        {"disk_length", length_task}, {"disk_check", check_task}, {"disk_alike", alike_task}, {"disk_format", format_task},
        {"disk_read", read_task},     {"disk_bag", bag_task},     {"disk_print", print_task}, {"disk_parse", parse_task},
        {"disk_parse_settings", parse_settings_task},
    };
    for (size_t i = 0; i < COUNT(calls); i++) {
        code = DISK_BAD_INPUT;
        size_t bytes = measure(calls[i].task);
        EXPECT(code == DISK_OK);
        print_taken(calls[i].name, bytes);
    }
}

int main(void)
{
    make_stack();
    on = formatted((position){ON_HEAP, 0}, life_settings);
    memcpy(on.twin.bytes, on.store.bytes, on.store.length);
    one_by_one();
    every_kind();
    in_one_run();
    other_calls();
    end(&on);
    return 0;
}
