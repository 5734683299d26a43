/* A list of events with all that a run is lent. */
#ifndef LIST_H
#define LIST_H

#include "lent.h"

/* Each area in one position, but events and answers without a gap: they lie where words may lie. Events and data can't be written. */
typedef struct {
    area events, data, area, answers;
} list;

/* A list of so many events, all of them 0, with data and an area of these lengths. */
list new_list(position position, size_t count, size_t data_length, size_t area_length);
void end_list(list *list);

/* The rows' events; the block of row i is the i-th of the data and of the area, and holds the data that belong to the row's key. */
list list_of(position position, size_t size, const row *rows, size_t count);

void set_event(list *list, size_t index, disk_event event);
disk_step_answer answer(const list *list, size_t index);

/* The run, whole; with other numbers of words; and one that must be refused and change no byte. */
uint64_t run(area *store, list *list);
uint64_t run_words(area *store, list *list, size_t event_words, size_t answer_words);
void run_refused(area *store, list *list, size_t event_words, size_t answer_words, uint64_t code);

/* Some rows in one run, each told what it says; blocks and data as for walk. */
void run_rows(area *store, settings settings, const row *rows, size_t count);

#endif
