/* The bag as records: what was sent and neither delivered nor dropped, oldest first, in areas of every length at the edge of memory. */
#include "lent.h"

#include <string.h>

/* A store whose bucket 0 has block 5 mapped, so that it can be sent. */
static lent mapped(position position)
{
    static const row rows[] = {
        {DISK_LEARN, 0, 0, 0, 0, NO_KEY},
        {DISK_PUT, 0, 0, 5, 0, KEY(1, 0)},
        {DISK_COPY, KEY(1, 0), 0, 0, 0, NO_KEY},
        {DISK_SAVELOG, 0, 0, 0, 0, NO_KEY},
        {DISK_SAVELOG, 1, 0, 0, 0, NO_KEY},
        {DISK_MAP, 0, 5, 0, 0, NO_KEY},
    };
    lent lent = formatted(position, least);
    WALK(&lent, rows);
    return lent;
}

/* The bag has the relays of block 5 with the given order numbers; areas of every length up to a few more. */
static void expect_bag(lent *lent, position position, const uint64_t *orders, size_t count)
{
    for (size_t length = 0; length <= count + 2; length++) {
        area records = lend(without_gap(position), length * sizeof(disk_relay));
        disk_relay *relays = (disk_relay *)(void *)records.bytes;
        memset(records.bytes, 0x3c, records.length);
        seal(&lent->store);
        disk_bag_answer told = disk_bag(lent->store.bytes, lent->store.length, relays, length);
        unseal(&lent->store);
        bool enough = length >= count;
        EXPECT(told.code == (enough ? DISK_OK : DISK_BAD_INPUT) && told.count == (enough ? count : 0));
        for (size_t i = 0; i < told.count; i++)
            EXPECT(relays[i].view == 1 && relays[i].bucket == 0 && relays[i].order == orders[i] && relays[i].block == 5 && relays[i].key == KEY(1, 0));
        for (size_t byte = told.count * sizeof(disk_relay); byte < records.length; byte++)
            EXPECT(records.bytes[byte] == 0x3c);
        take_back(&records);
    }
}

static void under_way(position position)
{
    lent lent = mapped(position);
    expect_bag(&lent, position, NULL, 0);
    for (int i = 0; i < 4; i++)
        accept(&lent, DISK_SEND, 5, 0);
    expect_bag(&lent, position, (const uint64_t[]){1, 2, 3, 4}, 4);
    accept(&lent, DISK_DROP, 1, 0);
    expect_bag(&lent, position, (const uint64_t[]){1, 3, 4}, 3);
    EXPECT(step(&lent, DISK_DELIVER, 2, 0, 0).code == DISK_OK);
    expect_bag(&lent, position, (const uint64_t[]){1, 3}, 2);
    end(&lent);
}

static void full_bag(position position)
{
    lent lent = mapped(position);
    uint64_t orders[DISK_MOST_RELAYS];
    for (size_t i = 0; i < DISK_MOST_RELAYS; i++) {
        accept(&lent, DISK_SEND, 5, 0);
        orders[i] = i + 1;
    }
    EXPECT(step(&lent, DISK_SEND, 5, 0, 0).code == DISK_NO_ROOM);
    expect_bag(&lent, position, orders, DISK_MOST_RELAYS);
    end(&lent);
}

int main(void)
{
    in_every_position(under_way);
    full_bag((position){AT_END, 0});
    full_bag((position){AT_START, 0});
    full_bag((position){ON_HEAP, 0});
    return 0;
}
