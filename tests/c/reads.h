/* A read of many blocks with all that it is lent. */
#ifndef READS_H
#define READS_H

#include "lent.h"

/* Block numbers lie without a gap, where words may lie, and can't be written. Answers begin as bytes of 0x5a. */
typedef struct {
    area blocks, answers;
} reading;

/* So many blocks, all of them 0, and an area of this length for their answers. */
reading new_reading(position position, size_t count, size_t length);
void end_reading(reading *reading);

void set_block(reading *reading, size_t index, uint64_t block);

/* The bytes that the answers of so many blocks have. */
size_t length_of_answers(settings settings, size_t count);

/* The read, on a store that can't be written; and one of so many blocks that must be refused and change no byte. */
uint64_t read_blocks(const area *store, uint64_t proxy, const reading *reading);
void read_refused(const area *store, size_t count, size_t length, uint64_t code);

/* Some rows, gets of one proxy, in one read with an area of this length: each told what it says with the data that belong to its key, and bytes past the
 * last answer stay. With more rows than a read takes, or too short an area, the read must be refused. */
void read_rows(const area *store, settings settings, const row *rows, size_t count, size_t length);

#endif
