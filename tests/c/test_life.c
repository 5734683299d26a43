/* The life of a store: writes, a crash, recovery, collection, a loss and a new brick. Every kind of event is accepted at least once. */
#include "lent.h"

enum { NOWHERE = 8 };

/* An event at every place but one that is down. */
static void at_places(lent *lent, uint64_t kind, uint64_t down)
{
    for (uint64_t place = 0; place < lent->settings.places; place++)
        if (place != down)
            accept(lent, kind, place, 0);
}

/* A new view, up to the point at which blocks are read and written again. */
static void begin_view(lent *lent, uint64_t down)
{
    accept(lent, DISK_VIEW, 0, 0);
    for (uint64_t bucket = 0; bucket < BUCKETS; bucket++) {
        accept(lent, DISK_FETCH, bucket, 0);
        accept(lent, DISK_READY, bucket, 0);
    }
    at_places(lent, DISK_MEND, down);
    accept(lent, DISK_LEARN, 0, 0);
}

static void write_5(lent *lent)
{
    static const row rows[] = {
        {DISK_GET, 0, 5, 0, DISK_VIEW_UNKNOWN, NO_KEY},
        {DISK_LEARN, 0, 0, 0, DISK_OK, NO_KEY},
        {DISK_GET, 0, 5, 0, DISK_OK, NO_KEY},
        {DISK_PUT, 0, 0, 5, DISK_OK, KEY(1, 0)},
        {DISK_PUT, 0, 0, 5, DISK_WRONG_ITEM, NO_KEY},
        {DISK_MAP, 0, 5, 0, DISK_NO_CHUNK, NO_KEY},
        {DISK_COPY, KEY(1, 0), 0, 0, DISK_OK, NO_KEY},
        {DISK_SAVELOG, 0, 0, 0, DISK_OK, NO_KEY},
        {DISK_MAP, 0, 5, 0, DISK_NO_CHUNK, NO_KEY},
        {DISK_SAVELOG, 1, 0, 0, DISK_OK, NO_KEY},
        {DISK_DONE, 0, 5, 0, DISK_OTHER_KEY, NO_KEY},
        {DISK_MAP, 0, 5, 0, DISK_OK, NO_KEY},
        {DISK_GET, 0, 5, 0, DISK_PENDING, NO_KEY},
        {DISK_SEND, 5, 0, 0, DISK_OK, NO_KEY},
        {DISK_DELIVER, 0, 0, 0, DISK_OK, 1},
        {DISK_SAVEMAP, 0, 0, 0, DISK_OK, NO_KEY},
        {DISK_DONE, 0, 5, 0, DISK_PENDING, NO_KEY},
        {DISK_SAVEMAP, 1, 0, 0, DISK_OK, NO_KEY},
        {DISK_DONE, 0, 5, 0, DISK_OK, NO_KEY},
        {DISK_GET, 0, 5, 0, DISK_OK, KEY(1, 0)},
    };
    WALK(lent, rows);
}

static void crash_and_recover(lent *lent)
{
    static const row crashed[] = {
        {DISK_CRASH, 0, 0, 0, DISK_OK, NO_KEY},
        {DISK_CRASH, 0, 0, 0, DISK_WRONG_STATE, NO_KEY},
        {DISK_PUT, 0, 0, 6, DISK_NO_MEMBER, NO_KEY},
        {DISK_GET, 0, 5, 0, DISK_NO_MEMBER, NO_KEY},
    };
    static const row shown[] = {{DISK_GET, 0, 5, 0, DISK_OK, KEY(1, 0)}};
    WALK(lent, crashed);
    begin_view(lent, 0);
    WALK(lent, shown);
    accept(lent, DISK_RISE, 0, 0);
    begin_view(lent, NOWHERE);
    WALK(lent, shown);
}

/* The block again: after a crash the next sequence number is the ceiling. */
static void write_5_again(lent *lent)
{
    static const row put[] = {
        {DISK_PUT, 0, 0, 5, DISK_OK, KEY(1, 1024)},
        {DISK_COPY, KEY(1, 1024), 0, 0, DISK_OK, NO_KEY},
    };
    static const row relayed[] = {
        {DISK_MAP, 0, 5, 0, DISK_OK, NO_KEY},
        {DISK_SEND, 5, 0, 0, DISK_OK, NO_KEY},
        {DISK_SEND, 5, 0, 0, DISK_OK, NO_KEY},
        {DISK_DELIVER, 1, 0, 0, DISK_OK, 1},
        {DISK_DELIVER, 0, 0, 0, DISK_OK, 0},
        {DISK_DELIVER, 0, 0, 0, DISK_BAD_INPUT, NO_KEY},
    };
    static const row confirmed[] = {
        {DISK_DONE, 0, 5, 0, DISK_OK, NO_KEY},
        {DISK_GET, 0, 5, 0, DISK_OK, KEY(1, 1024)},
    };
    WALK(lent, put);
    at_places(lent, DISK_SAVELOG, NOWHERE);
    WALK(lent, relayed);
    at_places(lent, DISK_SAVEMAP, NOWHERE);
    WALK(lent, confirmed);
}

static void give_up_and_collect(lent *lent)
{
    static const row given_up[] = {
        {DISK_PUT, 0, 1, 6, DISK_OK, KEY(2, 0)},
        {DISK_ABANDON, 0, 6, 0, DISK_OK, NO_KEY},
        {DISK_ABANDON, 0, 6, 0, DISK_WRONG_ITEM, NO_KEY},
        {DISK_PUT, 0, 1, 6, DISK_OK, KEY(2, 1)},
        {DISK_COLLECT, 1, 0, 0, DISK_WRONG_STATE, NO_KEY},
        {DISK_RESET, 0, 0, 0, DISK_OK, NO_KEY},
        {DISK_SEND, 5, 0, 0, DISK_OK, NO_KEY},
        {DISK_DROP, 0, 0, 0, DISK_OK, NO_KEY},
        {DISK_DROP, 0, 0, 0, DISK_BAD_INPUT, NO_KEY},
    };
    static const row kept[] = {
        {DISK_LEARN, 0, 0, 0, DISK_OK, NO_KEY},
        {DISK_GET, 0, 5, 0, DISK_OK, KEY(1, 1024)},
        {DISK_COPY, KEY(1, 1024), 0, 0, DISK_OK, NO_KEY},
        {DISK_COPY, KEY(1, 0), 0, 0, DISK_NO_CHUNK, NO_KEY},
        {DISK_COPY, KEY(2, 1), 0, 0, DISK_NO_CHUNK, NO_KEY},
    };
    WALK(lent, given_up);
    at_places(lent, DISK_COLLECT, NOWHERE);
    WALK(lent, kept);
}

/* The home brick of the block goes for good, and a blank one with a new id comes to its place. */
static void lose_and_join(lent *lent)
{
    static const row shown[] = {{DISK_GET, 0, 5, 0, DISK_OK, KEY(1, 1024)}};
    row put[] = {{DISK_PUT, 0, 0, 7, DISK_OK, KEY(lent->settings.places + 1, 0)}};
    accept(lent, DISK_LOSE, 0, 0);
    accept(lent, DISK_JOIN, 0, 0);
    begin_view(lent, NOWHERE);
    WALK(lent, shown);
    WALK(lent, put);
}

static void live(position position, settings settings)
{
    lent lent = formatted(position, settings);
    write_5(&lent);
    crash_and_recover(&lent);
    write_5_again(&lent);
    give_up_and_collect(&lent);
    lose_and_join(&lent);
    end(&lent);
}

static void lives(position position)
{
    live(position, least);
    live(position, most_places);
    live(position, largest_blocks);
}

int main(void)
{
    in_every_position(lives);
    return 0;
}
