#define _DEFAULT_SOURCE
#include "areas.h"

#include <stdio.h>
#include <stdlib.h>
#include <string.h>
#include <sys/mman.h>
#include <unistd.h>

/* What the bytes around an area hold. */
enum { AROUND = 0xc5 };

void expect(bool holds, const char *condition, const char *file, int line)
{
    if (holds)
        return;
    fprintf(stderr, "%s:%d: does not hold: %s\n", file, line, condition);
    exit(1);
}

void in_every_position(void (*test)(position))
{
    static const position positions[] = {
        {AT_END, 0}, {AT_END, 1}, {AT_END, 3}, {AT_END, 7}, {AT_START, 0}, {AT_START, 1}, {AT_START, 5}, {ON_HEAP, 0}, {ON_HEAP, 1},
    };
    for (size_t i = 0; i < COUNT(positions); i++)
        test(positions[i]);
}

position without_gap(position where)
{
    where.gap = 0;
    return where;
}

static size_t page(void)
{
    return (size_t)sysconf(_SC_PAGESIZE);
}

static area lend_on_heap(position position, size_t length)
{
    uint8_t *bytes = malloc(position.gap + length);
    EXPECT(bytes != NULL);
    return (area){bytes + position.gap, length, position, bytes, position.gap + length};
}

static area lend_in_pages(position position, size_t length)
{
    size_t pages_length = (position.gap + length + page()) / page() * page();
    uint8_t *guard = mmap(NULL, pages_length + 2 * page(), PROT_NONE, MAP_PRIVATE | MAP_ANONYMOUS, -1, 0);
    EXPECT(guard != MAP_FAILED);
    uint8_t *pages = guard + page();
    EXPECT(mprotect(pages, pages_length, PROT_READ | PROT_WRITE) == 0);
    memset(pages, AROUND, pages_length);
    size_t start = position.edge == AT_START ? position.gap : pages_length - position.gap - length;
    for (size_t i = 0; i < length; i++)
        pages[start + i] = (uint8_t)rand();
    return (area){pages + start, length, position, pages, pages_length};
}

area lend(position position, size_t length)
{
    return position.edge == ON_HEAP ? lend_on_heap(position, length) : lend_in_pages(position, length);
}

void take_back(area *area)
{
    if (area->position.edge == ON_HEAP) {
        free(area->pages);
        return;
    }
    const uint8_t *end = area->pages + area->pages_length;
    for (const uint8_t *byte = area->pages; byte < end; byte++)
        EXPECT(*byte == AROUND || (byte >= area->bytes && byte < area->bytes + area->length));
    EXPECT(munmap(area->pages - page(), area->pages_length + 2 * page()) == 0);
}

static void allow(const area *area, int access)
{
    if (area->position.edge != ON_HEAP)
        EXPECT(mprotect(area->pages, area->pages_length, access) == 0);
}

void seal(const area *area)
{
    allow(area, PROT_READ);
}

void close_off(const area *area)
{
    allow(area, PROT_NONE);
}

void unseal(const area *area)
{
    allow(area, PROT_READ | PROT_WRITE);
}

uint8_t *bytes_of(const area *area)
{
    uint8_t *copy = malloc(area->length + 1);
    EXPECT(copy != NULL);
    memcpy(copy, area->bytes, area->length);
    return copy;
}

bool same_since(const area *area, uint8_t *old)
{
    bool same = area->position.edge == ON_HEAP || memcmp(area->bytes, old, area->length) == 0;
    free(old);
    return same;
}
