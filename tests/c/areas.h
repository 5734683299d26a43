/* Areas whose edges are watched, and the expectation that ends a test. */
#ifndef AREAS_H
#define AREAS_H

#include <stdbool.h>
#include <stddef.h>
#include <stdint.h>

#define COUNT(list) (sizeof(list) / sizeof((list)[0]))
#define EXPECT(condition) expect((condition), #condition, __FILE__, __LINE__)

/* Ends the process with a message where the condition does not hold. */
void expect(bool holds, const char *condition, const char *file, int line);

/* Where an area lies: so many bytes from the end or from the start of its pages, which have a page before and a page after them that nobody may touch.
 * With gap 0 the first byte past that edge is a crash; with an odd gap the area lies at an odd address. On the heap the bytes are not set, so that
 * valgrind tells of one that is read before it is written, and of one outside. */
typedef enum { AT_END, AT_START, ON_HEAP } edge;

typedef struct {
    edge edge;
    size_t gap;
} position;

typedef struct {
    uint8_t *bytes;
    size_t length;
    position position;
    uint8_t *pages;
    size_t pages_length;
} area;

/* Runs a test once in every position. */
void in_every_position(void (*test)(position));

/* The same edge, where words and records of words may lie. */
position without_gap(position position);

/* An area of random bytes; on the heap of unset ones. */
area lend(position position, size_t length);

/* Ends a lending; the other bytes of its pages must be as they were. */
void take_back(area *area);

/* Makes a write to the area a crash; makes a read too a crash; allows both again. Areas on the heap stay as they are. */
void seal(const area *area);
void close_off(const area *area);
void unseal(const area *area);

/* A copy of the bytes, for the question whether they have changed since. Bytes of the heap may be unset: they are not compared. */
uint8_t *bytes_of(const area *area);
bool same_since(const area *area, uint8_t *old);

#endif
