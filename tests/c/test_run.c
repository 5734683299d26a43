/* Many events in one call: words of events and answers, blocks at the ends of data and area, areas that no event looks at, the inline call. That a list of
 * events is told and leaves what its events do one by one is part of every walk. */
#include "list.h"

#include <string.h>

/* A learn, then puts and gets in turns, all accepted; the blocks lie one after the other. */
static list some_events(position position, size_t count, size_t size)
{
    list list = new_list(position, count, count * size, count * size);
    for (size_t i = 0; i < count; i++) {
        uint64_t kind = i == 0 ? DISK_LEARN : i % 2 == 1 ? DISK_PUT : DISK_GET;
        set_event(&list, i, (disk_event){kind, 0, kind == DISK_PUT ? 0 : i, i, i * size});
    }
    return list;
}

/* A formatted store and its twin, from which the store can be had again as it was. */
static lent with_twin(position position, settings settings)
{
    lent lent = formatted(position, settings);
    memcpy(lent.twin.bytes, lent.store.bytes, lent.store.length);
    return lent;
}

static void begin_again(lent *lent)
{
    memcpy(lent->store.bytes, lent->twin.bytes, lent->store.length);
}

/* Every number of words for events and for answers up to those of three events. */
static void words(position position)
{
    lent lent = with_twin(position, least);
    list list = some_events(position, 3, least.size);
    for (size_t event_words = 0; event_words <= 15; event_words++)
        for (size_t answer_words = 0; answer_words <= 6; answer_words++) {
            begin_again(&lent);
            if (event_words % 5 != 0 || answer_words != event_words / 5 * 2) {
                run_refused(&lent.store, &list, event_words, answer_words, DISK_BAD_INPUT);
                continue;
            }
            EXPECT(run_words(&lent.store, &list, event_words, answer_words) == DISK_OK);
            for (size_t i = 0; i < event_words / 5; i++)
                EXPECT(answer(&list, i).code == DISK_OK && answer(&list, i).key == (i == 1 ? KEY(1, 0) : NO_KEY));
        }
    end_list(&list);
    end(&lent);
}

/* A put and a get whose blocks begin at a byte of a data area and of an area of one length. */
static void block_at(lent *lent, size_t length, uint64_t at)
{
    size_t size = lent->settings.size;
    bool fits = at <= length && length - at >= size;
    list list = new_list(lent->store.position, 3, length, length);
    set_event(&list, 0, (disk_event){DISK_LEARN, 0, 0, 0, at});
    set_event(&list, 1, (disk_event){DISK_PUT, 0, 0, 5, at});
    set_event(&list, 2, (disk_event){DISK_GET, 0, 5, 0, at});
    begin_again(lent);
    EXPECT(run(&lent->store, &list) == DISK_OK);
    EXPECT(answer(&list, 0).code == DISK_OK);
    EXPECT(answer(&list, 1).code == (fits ? DISK_OK : DISK_BAD_INPUT) && answer(&list, 1).key == (fits ? KEY(1, 0) : NO_KEY));
    EXPECT(answer(&list, 2).code == (fits ? DISK_OK : DISK_BAD_INPUT) && answer(&list, 2).key == NO_KEY);
    for (size_t i = 0; i < length; i++)
        EXPECT(list.area.bytes[i] == (fits && i >= at && i - at < size ? 0 : 0x5a));
    end_list(&list);
}

static void blocks_at_the_ends(position position, settings settings)
{
    size_t size = settings.size;
    const size_t lengths[] = {0, 1, size - 1, size, size + 1, 2 * size};
    const uint64_t far[] = {(uint64_t)1 << 63, UINT64_MAX - size, UINT64_MAX - size + 1, UINT64_MAX - size + 2, UINT64_MAX};
    lent lent = with_twin(position, settings);
    for (size_t i = 0; i < COUNT(lengths); i++) {
        size_t length = lengths[i], last = length < size ? 0 : length - size;
        for (uint64_t at = last < 2 ? 0 : last - 2; at <= last + 2; at++)
            block_at(&lent, length, at);
        block_at(&lent, length, length);
        for (size_t j = 0; j < COUNT(far); j++)
            block_at(&lent, length, far[j]);
    }
    end(&lent);
}

/* Two gets whose blocks share bytes: the later one's stay, and the rest of the earlier one's. */
static void blocks_that_overlap(position position)
{
    size_t size = least.size;
    lent lent = formatted(position, least);
    accept(&lent, DISK_LEARN, 0, 0);
    write_block(&lent, 5, KEY(1, 0));
    list list = new_list(position, 2, 0, size + 3);
    uint8_t expected[16];
    set_event(&list, 0, (disk_event){DISK_GET, 0, 5, 0, 0});
    set_event(&list, 1, (disk_event){DISK_GET, 0, 6, 0, 3});
    fill_data(expected, size, KEY(1, 0));
    memset(expected + 3, 0, size);
    EXPECT(run(&lent.store, &list) == DISK_OK);
    EXPECT(answer(&list, 0).key == KEY(1, 0) && answer(&list, 1).key == NO_KEY && memcmp(list.area.bytes, expected, size + 3) == 0);
    end_list(&list);
    end(&lent);
}

/* A list without put and get looks at neither data nor area; an empty one at the store alone. */
static void areas_that_no_event_reads(position position)
{
    lent lent = formatted(position, least);
    list list = new_list(position, DISK_COLLECT + 2, 24, 24);
    for (uint64_t kind = 0; kind <= DISK_COLLECT + 1; kind++)
        set_event(&list, kind, (disk_event){kind == DISK_PUT || kind == DISK_GET ? DISK_LEARN : kind, 0, 0, 0, 8});
    close_off(&list.data);
    close_off(&list.area);
    EXPECT(run(&lent.store, &list) == DISK_OK && answer(&list, DISK_PUT).code == DISK_OK && answer(&list, 0).code == DISK_BAD_INPUT);
    close_off(&list.events);
    close_off(&list.answers);
    seal(&lent.store);
    EXPECT(run_words(&lent.store, &list, 0, 0) == DISK_OK);
    unseal(&lent.store);
    unseal(&list.events);
    unseal(&list.answers);
    unseal(&list.data);
    unseal(&list.area);
    end_list(&list);
    end(&lent);
}

/* The inline call counts the words. */
static void inline_call(position position)
{
    lent lent = formatted(position, least);
    disk_event events[] = {{DISK_LEARN, 0, 0, 0, 0}, {DISK_PUT, 0, 0, 5, 0}, {DISK_GET, 0, 5, 0, 0}, {DISK_GET, 0, 6, 0, 1}};
    disk_step_answer answers[COUNT(events)];
    EXPECT(disk_do_all(lent.store.bytes, lent.store.length, events, COUNT(events), lent.data.bytes, lent.data.length, lent.answer.bytes, lent.answer.length,
                       answers) == DISK_OK);
    EXPECT(answers[0].code == DISK_OK && answers[1].key == KEY(1, 0) && answers[2].code == DISK_OK && answers[3].code == DISK_BAD_INPUT);
    EXPECT(memcmp(lent.answer.bytes, lent.zero.bytes, lent.answer.length) == 0);
    EXPECT(disk_do_all(lent.store.bytes, lent.store.length - 8, events, COUNT(events), lent.data.bytes, 0, lent.answer.bytes, 0, answers) == DISK_UNSOUND);
    end(&lent);
}

static void runs(position position)
{
    words(position);
    blocks_at_the_ends(position, least);
    blocks_at_the_ends(position, most_places);
    blocks_that_overlap(position);
    areas_that_no_event_reads(position);
    inline_call(position);
}

int main(void)
{
    in_every_position(runs);
    return 0;
}
