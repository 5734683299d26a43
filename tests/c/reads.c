#include "reads.h"

#include <string.h>

enum { UNTOUCHED = 0x5a };

reading new_reading(position position, size_t count, size_t length)
{
    reading reading = {lend(without_gap(position), count * sizeof(uint64_t)), lend(position, length)};
    memset(reading.blocks.bytes, 0, reading.blocks.length);
    memset(reading.answers.bytes, UNTOUCHED, length);
    seal(&reading.blocks);
    return reading;
}

void end_reading(reading *reading)
{
    take_back(&reading->blocks);
    take_back(&reading->answers);
}

void set_block(reading *reading, size_t index, uint64_t block)
{
    unseal(&reading->blocks);
    memcpy(reading->blocks.bytes + index * sizeof block, &block, sizeof block);
    seal(&reading->blocks);
}

size_t length_of_answers(settings settings, size_t count)
{
    return count * (9 + settings.size);
}

uint64_t read_blocks(const area *store, uint64_t proxy, const reading *reading)
{
    const area *blocks = &reading->blocks, *answers = &reading->answers;
    seal(store);
    uint64_t code = disk_read(store->bytes, store->length, proxy, (const uint64_t *)(const void *)blocks->bytes, blocks->length / sizeof(uint64_t),
                              answers->bytes, answers->length);
    unseal(store);
    return code;
}

static void expect_untouched(const reading *reading, size_t from)
{
    for (size_t byte = from; byte < reading->answers.length; byte++)
        EXPECT(reading->answers.bytes[byte] == UNTOUCHED);
}

void read_refused(const area *store, size_t count, size_t length, uint64_t code)
{
    reading reading = new_reading(store->position, count, length);
    EXPECT(read_blocks(store, 0, &reading) == code);
    expect_untouched(&reading, 0);
    end_reading(&reading);
}

void read_rows(const area *store, settings settings, const row *rows, size_t count, size_t length)
{
    size_t size = settings.size, needed = length_of_answers(settings, count);
    if (count > 64 || length < needed) {
        read_refused(store, count, length, DISK_BAD_INPUT);
        return;
    }
    reading reading = new_reading(store->position, count, length);
    const uint8_t *answers = reading.answers.bytes;
    for (size_t i = 0; i < count; i++)
        set_block(&reading, i, rows[i].b);
    EXPECT(read_blocks(store, rows[0].a, &reading) == DISK_OK);
    for (size_t i = 0; i < count; i++) {
        disk_step_answer told = {disk_answer_code(answers, size, i), disk_answer_key(answers, size, i)};
        expect_told(&rows[i], told);
        EXPECT(is_data(disk_answer_bytes(answers, size, i), size, rows[i].key));
    }
    expect_untouched(&reading, needed);
    end_reading(&reading);
}
