/* Every code of a step, every kind refused, and numbers that are no kind. Each list begins on a fresh store. */
#include "lent.h"

#define BLOCKS ((uint64_t)1 << 51)
#define PROXY_BLOCKS ((uint64_t)1 << 49)

/* Block 5 is put at place 0 and saved there. */
static void save_once(lent *lent)
{
    static const row rows[] = {
        {DISK_LEARN, 0, 0, 0, DISK_OK, NO_KEY},
        {DISK_PUT, 0, 0, 5, DISK_OK, KEY(1, 0)},
        {DISK_SAVELOG, 0, 0, 0, DISK_OK, NO_KEY},
    };
    WALK(lent, rows);
}

/* And copied to place 1 and saved there too. */
static void put_5(lent *lent)
{
    save_once(lent);
    accept(lent, DISK_COPY, KEY(1, 0), 0);
    accept(lent, DISK_SAVELOG, 1, 0);
}

static void map_5(lent *lent)
{
    put_5(lent);
    accept(lent, DISK_MAP, 0, 5);
}

static void nothing(lent *lent)
{
    (void)lent;
}

static void crash_0(lent *lent)
{
    accept(lent, DISK_CRASH, 0, 0);
}

static void learn_and_crash_0(lent *lent)
{
    accept(lent, DISK_LEARN, 0, 0);
    crash_0(lent);
}

static void crash_two(lent *lent)
{
    crash_0(lent);
    accept(lent, DISK_CRASH, 1, 0);
}

static void begin_view(lent *lent)
{
    accept(lent, DISK_VIEW, 0, 0);
    accept(lent, DISK_LEARN, 0, 0);
}

/* Four chunks are a full log; their blocks are 5 to 8. */
static void fill_log_0(lent *lent)
{
    for (uint64_t i = 0; i < 4; i++) {
        row put = {DISK_PUT, 0, 0, 5 + i, DISK_OK, KEY(1, i)};
        walk(lent, &put, 1);
    }
}

/* With two entries in bucket 0, items for blocks 5, 6 and 7. */
static void fill_bucket_0(lent *lent)
{
    fill_log_0(lent);
    accept(lent, DISK_LEARN, 0, 0);
    accept(lent, DISK_COPY, KEY(1, 0), 0);
    accept(lent, DISK_COPY, KEY(1, 1), 0);
    accept(lent, DISK_SAVELOG, 0, 0);
    accept(lent, DISK_SAVELOG, 1, 0);
    accept(lent, DISK_MAP, 0, 5);
    accept(lent, DISK_MAP, 0, 6);
}

static void fill_bag(lent *lent)
{
    map_5(lent);
    for (int i = 0; i < 64; i++)
        accept(lent, DISK_SEND, 5, 0);
}

static void use_all_ids(lent *lent)
{
    for (int id = 4; id <= 255; id++) {
        accept(lent, DISK_LOSE, 0, 0);
        accept(lent, DISK_JOIN, 0, 0);
    }
}

/* No list of events fills the backup alone: two entries are written by hand into the memory copy of bucket 0 at place 1. */
static void fill_backup(lent *lent)
{
    static const uint64_t copy[] = {2, 6, KEY(1, 0), 7, KEY(1, 0)};
    const size_t memory = PLACES_AT + place_words(lent->settings) + COPIES_AT;
    map_5(lent);
    accept(lent, DISK_SEND, 5, 0);
    for (size_t i = 0; i < COUNT(copy); i++)
        set_word(&lent->store, memory + i, copy[i]);
}

/* What happens on a fresh store, and the event that is then refused. */
static const struct {
    void (*before)(lent *);
    row refused;
} lists[] = {
    {crash_0, {DISK_PUT, 0, 0, 5, DISK_NO_MEMBER, NO_KEY}},
    {nothing, {DISK_PUT, 4, 0, 5, DISK_BAD_INPUT, NO_KEY}},
    {nothing, {DISK_PUT, 0, 3, 5, DISK_BAD_INPUT, NO_KEY}},
    {nothing, {DISK_PUT, 0, 0, BLOCKS, DISK_BAD_INPUT, NO_KEY}},
    {nothing, {DISK_PUT, 0, 0, PROXY_BLOCKS, DISK_WRONG_PROXY, NO_KEY}},
    {fill_log_0, {DISK_PUT, 0, 0, 5, DISK_WRONG_ITEM, NO_KEY}},
    {fill_log_0, {DISK_PUT, 0, 0, 9, DISK_NO_ROOM, NO_KEY}},
    {nothing, {DISK_COPY, 1, 0, 0, DISK_BAD_INPUT, NO_KEY}},
    {nothing, {DISK_COPY, KEY(4, 0), 0, 0, DISK_NO_MEMBER, NO_KEY}},
    {nothing, {DISK_COPY, KEY(1, 0), 0, 0, DISK_NO_CHUNK, NO_KEY}},
    {fill_log_0, {DISK_COPY, KEY(3, 0), 0, 0, DISK_NO_ROOM, NO_KEY}},
    {crash_0, {DISK_SAVELOG, 0, 0, 0, DISK_NO_MEMBER, NO_KEY}},
    {nothing, {DISK_MAP, 0, 5, 0, DISK_VIEW_UNKNOWN, NO_KEY}},
    {map_5, {DISK_MAP, 0, 5, 0, DISK_PENDING, NO_KEY}},
    {map_5, {DISK_MAP, 0, 6, 0, DISK_WRONG_ITEM, NO_KEY}},
    {fill_bucket_0, {DISK_MAP, 0, 7, 0, DISK_NO_ROOM, NO_KEY}},
    {save_once, {DISK_MAP, 0, 5, 0, DISK_NO_CHUNK, NO_KEY}},
    {nothing, {DISK_SEND, 5, 0, 0, DISK_WRONG_STATE, NO_KEY}},
    {begin_view, {DISK_SEND, 5, 0, 0, DISK_NOT_READY, NO_KEY}},
    {fill_bag, {DISK_SEND, 6, 0, 0, DISK_NO_ROOM, NO_KEY}},
    {nothing, {DISK_DELIVER, 0, 0, 0, DISK_BAD_INPUT, NO_KEY}},
    {fill_backup, {DISK_DELIVER, 0, 0, 0, DISK_BACKUP_FULL, NO_KEY}},
    {nothing, {DISK_DROP, 0, 0, 0, DISK_BAD_INPUT, NO_KEY}},
    {crash_0, {DISK_SAVEMAP, 0, 0, 0, DISK_NO_MEMBER, NO_KEY}},
    {put_5, {DISK_DONE, 0, 5, 0, DISK_OTHER_KEY, NO_KEY}},
    {nothing, {DISK_GET, 4, 5, 0, DISK_BAD_INPUT, NO_KEY}},
    {nothing, {DISK_GET, 0, BLOCKS, 0, DISK_BAD_INPUT, NO_KEY}},
    {nothing, {DISK_GET, 1, 5, 0, DISK_WRONG_PROXY, NO_KEY}},
    {crash_0, {DISK_GET, 0, 5, 0, DISK_VIEW_UNKNOWN, NO_KEY}},
    {learn_and_crash_0, {DISK_GET, 0, 5, 0, DISK_NO_MEMBER, NO_KEY}},
    {begin_view, {DISK_GET, 0, 5, 0, DISK_NOT_READY, NO_KEY}},
    {map_5, {DISK_GET, 0, 5, 0, DISK_PENDING, NO_KEY}},
    {nothing, {DISK_ABANDON, 0, 5, 0, DISK_WRONG_ITEM, NO_KEY}},
    {nothing, {DISK_LEARN, 4, 0, 0, DISK_BAD_INPUT, NO_KEY}},
    {nothing, {DISK_RESET, UINT64_MAX, 0, 0, DISK_BAD_INPUT, NO_KEY}},
    {crash_0, {DISK_CRASH, 0, 0, 0, DISK_WRONG_STATE, NO_KEY}},
    {nothing, {DISK_LOSE, 3, 0, 0, DISK_BAD_INPUT, NO_KEY}},
    {nothing, {DISK_RISE, 0, 0, 0, DISK_WRONG_STATE, NO_KEY}},
    {nothing, {DISK_JOIN, 0, 0, 0, DISK_WRONG_STATE, NO_KEY}},
    {use_all_ids, {DISK_JOIN, 0, 0, 0, DISK_NO_NUMBER, NO_KEY}},
    {crash_two, {DISK_VIEW, 0, 0, 0, DISK_WRONG_STATE, NO_KEY}},
    {nothing, {DISK_FETCH, BUCKETS, 0, 0, DISK_BAD_INPUT, NO_KEY}},
    {nothing, {DISK_FETCH, 0, 0, 0, DISK_WRONG_STATE, NO_KEY}},
    {begin_view, {DISK_READY, 0, 0, 0, DISK_WRONG_STATE, NO_KEY}},
    {crash_0, {DISK_MEND, 0, 0, 0, DISK_NO_MEMBER, NO_KEY}},
    {map_5, {DISK_COLLECT, 0, 0, 0, DISK_WRONG_STATE, NO_KEY}},
    {nothing, {0, 0, 0, 5, DISK_BAD_INPUT, NO_KEY}},
    {nothing, {DISK_KINDS + 1, 0, 0, 5, DISK_BAD_INPUT, NO_KEY}},
    {nothing, {256 + DISK_VIEW, 0, 0, 5, DISK_BAD_INPUT, NO_KEY}},
    {nothing, {((uint64_t)1 << 32) + DISK_VIEW, 0, 0, 5, DISK_BAD_INPUT, NO_KEY}},
    {nothing, {UINT64_MAX, 0, 0, 5, DISK_BAD_INPUT, NO_KEY}},
};

static void refusals(position position)
{
    for (size_t i = 0; i < COUNT(lists); i++) {
        lent lent = formatted(position, least);
        lists[i].before(&lent);
        walk(&lent, &lists[i].refused, 1);
        end(&lent);
    }
}

/* Each kind, and each code that the step can answer on a sound store, is in the table. */
static void all_are_there(void)
{
    for (uint64_t kind = 1; kind <= DISK_KINDS; kind++) {
        bool found = false;
        for (size_t i = 0; i < COUNT(lists); i++)
            found = found || lists[i].refused.kind == kind;
        EXPECT(found);
    }
    for (uint64_t code = DISK_BAD_INPUT; code <= LAST_CODE; code++) {
        bool found = false;
        for (size_t i = 0; i < COUNT(lists); i++)
            found = found || lists[i].refused.code == code;
        EXPECT(found);
    }
}

int main(void)
{
    all_are_there();
    in_every_position(refusals);
    return 0;
}
