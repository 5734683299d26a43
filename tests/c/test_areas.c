/* Short, long and empty areas: only data, zero block and answer area of the store's block size are taken, and kinds that look at none take any. */
#include "lent.h"

#include <string.h>

static disk_step_answer put(lent *lent, const area *data)
{
    const uint8_t *none = data->bytes + data->length;
    seal(data);
    disk_step_answer told = disk_step(lent->store.bytes, lent->store.length, DISK_PUT, 0, 0, 5, data->bytes, data->length, none, 0, (uint8_t *)none, 0);
    unseal(data);
    return told;
}

static disk_step_answer get(lent *lent, const area *zero, area *answer)
{
    const uint8_t *none = zero->bytes + zero->length;
    seal(zero);
    disk_step_answer told = disk_step(lent->store.bytes, lent->store.length, DISK_GET, 0, 5, UINT64_MAX, none, 0, zero->bytes, zero->length, answer->bytes,
                                      answer->length);
    unseal(zero);
    return told;
}

static void data_of_a_put(position position, settings settings, size_t length)
{
    lent lent = formatted(position, settings);
    area data = lend(position, length);
    uint8_t *old = bytes_of(&lent.store);
    memset(data.bytes, 0xd7, length);
    disk_step_answer told = put(&lent, &data);
    bool taken = length == settings.size;
    EXPECT(told.code == (taken ? DISK_OK : DISK_BAD_INPUT) && told.key == (taken ? KEY(1, 0) : NO_KEY));
    EXPECT(same_since(&lent.store, old) || taken);
    take_back(&data);
    end(&lent);
}

static void areas_of_a_get(lent *lent, position position, size_t zeros, size_t room)
{
    area zero = lend(position, zeros), answer = lend(position, room);
    memset(zero.bytes, 0, zeros);
    memset(answer.bytes, 0x5a, room);
    bool taken = zeros == lent->settings.size && room == lent->settings.size;
    disk_step_answer told = get(lent, &zero, &answer);
    EXPECT(told.code == (taken ? DISK_OK : DISK_BAD_INPUT) && told.key == NO_KEY);
    for (size_t i = 0; i < room; i++)
        EXPECT(answer.bytes[i] == (taken ? 0 : 0x5a));
    take_back(&zero);
    take_back(&answer);
}

static void zero_block_with_a_one(lent *lent)
{
    for (size_t i = 0; i < lent->zero.length; i++) {
        unseal(&lent->zero);
        lent->zero.bytes[i] = (uint8_t)(1 << i % 8);
        EXPECT(get(lent, &lent->zero, &lent->answer).code == DISK_BAD_INPUT);
        unseal(&lent->zero);
        lent->zero.bytes[i] = 0;
    }
    EXPECT(get(lent, &lent->zero, &lent->answer).code == DISK_OK);
}

/* The other kinds take areas of no bytes and of more than S; they look at none of them: their pages may not even be read. */
static void areas_that_no_rule_reads(position position)
{
    static const size_t lengths[] = {0, 1, 13, 100};
    for (size_t i = 0; i < COUNT(lengths); i++) {
        lent lent = formatted(position, least);
        area closed = lend(position, lengths[i]), answer = lend(position, lengths[i]);
        close_off(&closed);
        close_off(&answer);
        for (uint64_t kind = DISK_COPY; kind <= DISK_COLLECT; kind++)
            if (kind != DISK_GET)
                disk_step(lent.store.bytes, lent.store.length, kind, 0, 0, 0, closed.bytes, closed.length, closed.bytes, closed.length, answer.bytes,
                          answer.length);
        EXPECT(disk_check(lent.store.bytes, lent.store.length) == DISK_OK);
        unseal(&closed);
        unseal(&answer);
        take_back(&closed);
        take_back(&answer);
        end(&lent);
    }
}

static void areas(position position)
{
    for (size_t length = 0; length <= 3 * least.size; length++)
        data_of_a_put(position, least, length);
    for (size_t length = most_places.size - 2; length <= most_places.size + 2; length++)
        data_of_a_put(position, most_places, length);
    lent lent = formatted(position, least);
    accept(&lent, DISK_LEARN, 0, 0);
    for (size_t zeros = 0; zeros <= 2 * least.size; zeros++)
        for (size_t room = 0; room <= 2 * least.size; room++)
            areas_of_a_get(&lent, position, zeros, room);
    zero_block_with_a_one(&lent);
    end(&lent);
    areas_that_no_rule_reads(position);
}

int main(void)
{
    in_every_position(areas);
    return 0;
}
