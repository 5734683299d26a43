#include "list.h"

#include <string.h>

list new_list(position position, size_t count, size_t data_length, size_t area_length)
{
    list list = {
        lend(without_gap(position), count * sizeof(disk_event)),
        lend(position, data_length),
        lend(position, area_length),
        lend(without_gap(position), count * sizeof(disk_step_answer)),
    };
    memset(list.events.bytes, 0, list.events.length);
    memset(list.data.bytes, 0xd9, data_length);
    memset(list.area.bytes, 0x5a, area_length);
    seal(&list.events);
    seal(&list.data);
    return list;
}

void end_list(list *list)
{
    take_back(&list->events);
    take_back(&list->data);
    take_back(&list->area);
    take_back(&list->answers);
}

void set_event(list *list, size_t index, disk_event event)
{
    unseal(&list->events);
    memcpy(list->events.bytes + index * sizeof event, &event, sizeof event);
    seal(&list->events);
}

disk_step_answer answer(const list *list, size_t index)
{
    disk_step_answer answer;
    memcpy(&answer, list->answers.bytes + index * sizeof answer, sizeof answer);
    return answer;
}

uint64_t run_words(area *store, list *list, size_t event_words, size_t answer_words)
{
    return disk_run(store->bytes, store->length, (const disk_event *)(const void *)list->events.bytes, event_words, list->data.bytes, list->data.length,
                    list->area.bytes, list->area.length, (disk_step_answer *)(void *)list->answers.bytes, answer_words);
}

uint64_t run(area *store, list *list)
{
    return run_words(store, list, list->events.length / 8, list->answers.length / 8);
}

void run_refused(area *store, list *list, size_t event_words, size_t answer_words, uint64_t code)
{
    uint8_t *old_store = bytes_of(store), *old_area = bytes_of(&list->area), *old_answers = bytes_of(&list->answers);
    EXPECT(run_words(store, list, event_words, answer_words) == code);
    EXPECT(same_since(store, old_store) && same_since(&list->area, old_area) && same_since(&list->answers, old_answers));
}

list list_of(position position, size_t size, const row *rows, size_t count)
{
    list list = new_list(position, count, count * size, count * size);
    unseal(&list.data);
    for (size_t i = 0; i < count; i++) {
        set_event(&list, i, (disk_event){rows[i].kind, rows[i].a, rows[i].b, rows[i].c, i * size});
        fill_data(list.data.bytes + i * size, size, rows[i].key);
    }
    seal(&list.data);
    return list;
}

void run_rows(area *store, settings settings, const row *rows, size_t count)
{
    size_t size = settings.size;
    list list = list_of(store->position, size, rows, count);
    uint8_t *block = list.area.bytes;
    EXPECT(run(store, &list) == DISK_OK);
    for (size_t i = 0; i < count; i++, block += size) {
        expect_told(&rows[i], answer(&list, i));
        if (rows[i].kind == DISK_GET && rows[i].code == DISK_OK)
            EXPECT(is_data(block, size, rows[i].key));
        else
            for (size_t byte = 0; byte < size; byte++)
                EXPECT(block[byte] == 0x5a);
    }
    end_list(&list);
}
