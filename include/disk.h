/* The drawing disk: the calls for the network layer in C.
 *
 * Know first:
 * - Stack: every call needs less than DISK_STACK_BYTES, mend the most of it. Nothing is allocated, and no pointer is kept.
 * - Threads: there is no state but the lent areas. Calls on different stores may run at once; on one store one at a time, but for calls that only read it
 *   (disk_check, disk_read, disk_bag, disk_alike), which may run beside each other.
 * - Machines: the library is compiled for x86-64; a compiler for 32 bits refuses this header.
 * - Pointers: none is NULL, also where its length is 0. For an area that a call does not look at, lend the address of any byte with length 0, or call
 *   disk_do, disk_put or disk_get, which do so.
 * - Areas: one that a call writes overlaps no other area of that call. Bytes may begin anywhere; events, answers, block numbers and relays lie where C may
 *   place a uint64_t.
 * - A process that is ended amid a call leaves a store half written, which the next call may refuse with 2. Where that can happen run events on a copy, or keep
 *   the last good store.
 * No call has another condition: every input has the answer described here, and every call ends.
 *
 * A code of 0 says yes; any other is the number of the question that says no, and then all other fields are 0 and no lent byte has changed. Questions are
 * asked in the order of their numbers: a call on bytes that are no sound store answers 2 whatever else is wrong, and 3 comes next. Only the numbers of
 * disk_length, a length, and of disk_alike are others. */
#ifndef DISK_H
#define DISK_H

#include <stddef.h>
#include <stdint.h>

#if defined __cplusplus
static_assert(sizeof(size_t) == 8, "the drawing disk is for 64-bit machines");
#elif defined __STDC_VERSION__ && __STDC_VERSION__ >= 201112L
_Static_assert(sizeof(size_t) == 8, "the drawing disk is for 64-bit machines");
#else
typedef char disk_is_for_64_bit_machines[sizeof(size_t) == 8 ? 1 : -1];
#endif

#ifdef __cplusplus
extern "C" {
#endif

/* The codes: 0, and the questions by their numbers. What each says of a call is described at that call. */
enum {
    DISK_OK = 0,
    DISK_BAD_SETTINGS = 1,
    DISK_UNSOUND = 2,
    DISK_BAD_INPUT = 3,
    DISK_WRONG_PROXY = 4,
    DISK_VIEW_UNKNOWN = 5,
    DISK_NO_MEMBER = 6,
    DISK_NOT_READY = 7,
    DISK_PENDING = 8,
    DISK_WRONG_ITEM = 9,
    DISK_NO_ROOM = 10,
    DISK_NO_CHUNK = 11,
    DISK_NO_NUMBER = 12,
    DISK_WRONG_STATE = 13,
    DISK_BACKUP_FULL = 14,
    DISK_OTHER_KEY = 15
};

/* The kinds of events. */
enum {
    DISK_PUT = 1,
    DISK_COPY = 2,
    DISK_SAVELOG = 3,
    DISK_MAP = 4,
    DISK_SEND = 5,
    DISK_DELIVER = 6,
    DISK_DROP = 7,
    DISK_SAVEMAP = 8,
    DISK_DONE = 9,
    DISK_GET = 10,
    DISK_ABANDON = 11,
    DISK_LEARN = 12,
    DISK_RESET = 13,
    DISK_CRASH = 14,
    DISK_LOSE = 15,
    DISK_RISE = 16,
    DISK_JOIN = 17,
    DISK_VIEW = 18,
    DISK_FETCH = 19,
    DISK_READY = 20,
    DISK_MEND = 21,
    DISK_COLLECT = 22
};

/* So many kinds there are, numbered from 1. */
#define DISK_KINDS 22

/* A line of text has at most so many bytes, its line feed counted. */
#define DISK_LONGEST_LINE 16500

/* A bag has at most so many relays. */
#define DISK_MOST_RELAYS 64

/* disk_read takes at most so many blocks. */
#define DISK_MOST_BLOCKS 64

/* The bytes of an answer of disk_read before the block's: the code in one, the key in eight. */
#define DISK_HEAD_BYTES 9

/* Every call takes less than so many bytes of stack. */
#define DISK_STACK_BYTES 16384

/* What a step answers: its code, and a key. */
typedef struct {
    uint64_t code;
    uint64_t key;
} disk_step_answer;

/* An event of a list: its kind, its fields, and the byte at which its block begins: a put's in the data, a get's in the area. */
typedef struct {
    uint64_t kind;
    uint64_t a;
    uint64_t b;
    uint64_t c;
    uint64_t at;
} disk_event;

/* An event: its kind and its numbers in the order of its text; numbers that the kind does not have are 0. */
typedef struct {
    uint64_t code;
    uint64_t kind;
    uint64_t a;
    uint64_t b;
    uint64_t c;
} disk_event_answer;

typedef struct {
    uint64_t code;
    size_t length;
} disk_line_answer;

typedef struct {
    uint64_t code;
    uint64_t places;
    uint64_t size;
    uint64_t entries;
    uint64_t chunks;
} disk_settings_answer;

/* A relay on its way from a bucket's primary to its backup: the view in which it was sent, the bucket, its order number, and the entry. */
typedef struct {
    uint64_t view;
    uint64_t bucket;
    uint64_t order;
    uint64_t block;
    uint64_t key;
} disk_relay;

typedef struct {
    uint64_t code;
    size_t count;
} disk_bag_answer;

/* Whose a block is: its proxy, 0 to 3 for a block below 2^51. */
static inline uint64_t disk_block_proxy(uint64_t block)
{
    return block >> 49;
}

/* The bucket that maps a block. */
static inline uint64_t disk_block_bucket(uint64_t block)
{
    return block >> 10 & 15;
}

/* The id of the brick that a chunk was put to. Bricks 1, 2 .. stand at places 0, 1 .. of a fresh store; join gives the next id, so a place's id changes
 * only by lose and join. */
static inline uint64_t disk_key_home(uint64_t key)
{
    return key >> 56;
}

/* The bytes to lend for a store of these settings: places 3 to 8; block size 8 to 8,192, a multiple of 8; entries 2 to 1,024 in each bucket copy;
 * chunks 4 to 65,536 in each brick's log. 0 where a setting is outside its limits. */
uint64_t disk_length(uint64_t places, uint64_t size, uint64_t entries, uint64_t chunks);

/* Makes lent bytes a store with a brick at every place. Bytes that a fresh store does not use keep what they hold.
 * 0: store[0 .. store_length] is a store.
 * 1: a setting is outside its limits, or store_length is not disk_length of the settings. */
uint64_t disk_format(uint8_t *store, size_t store_length, uint64_t places, uint64_t size, uint64_t entries, uint64_t chunks);

/* Whether lent bytes are a sound store: written in this layout (its version is the first word), settings within limits and the length theirs, everything
 * in range and in its place.
 * 0: they are. 2: they are not. Its cost grows with what is in use. */
uint64_t disk_check(const uint8_t *store, size_t store_length);

/* An event on a store. The event is its kind and its fields a, b, c; fields that the kind does not have are not looked at:
 *
 *   kind           a       b       c       data              kind           a       b       c
 *    1 put         proxy   place   block   S bytes           12 learn       proxy
 *    2 copy        key                                       13 reset       proxy
 *    3 savelog     place                                     14 crash       place
 *    4 map         proxy   block                             15 lose        place
 *    5 send        block                                     16 rise        place
 *    6 deliver     index                                     17 join        place
 *    7 drop        index                                     18 view
 *    8 savemap     place                                     19 fetch       bucket
 *    9 done        proxy   block                             20 ready       bucket
 *   10 get         proxy   block                             21 mend        place
 *   11 abandon     proxy   block                             22 collect     place
 *
 * S is the store's block size. Only put looks at data, only get at zero and answer: zero is S bytes of 0, answer an area of S bytes. For every other kind
 * these may have any length, 0 too. The caller owns all four areas; the step writes the store, and an accepted get the answer area, and nothing else.
 *
 *  0: done. The key is the new chunk's (put), the block's or 0 where it has no mapping (get), 1 where the relay was taken and 0 where it was set aside
 *     (deliver), else 0. After a get answer[0 .. S] is the block's data, zeros where it has no mapping.
 *  1: never; it is the number of disk_format's question.
 *  2: the bytes are no sound store, as disk_check says.
 *  3: the kind is not 1 to DISK_KINDS, or a field is out of range (proxy 0 to 3; place below the settings' places; block below 2^51; the id in a key 1 to 255;
 *     index below the number of relays in the bag; bucket 0 to 15), or a put's data is not S bytes, or a get's zero block is not S zeros or its answer
 *     area not S bytes.
 *  4: the block is not the proxy's.
 *  5: the proxy does not know the present view (map, get, done).
 *  6: a brick that is needed is no up member: that at the place (put, savelog, savemap, mend, collect); the key's home (copy); the primary of the block's
 *     or the named bucket (map, send, done, get, fetch); the backup (deliver, unless the relay is set aside); either of the two (ready).
 *  7: the bucket is not ready (get, send, done).
 *  8: the block is pending, or waits in the buffer (map, get, done).
 *  9: there is an item for the block (put), or there is none (map, done, abandon).
 * 10: no room in items, log, bucket, buffer or bag.
 * 11: the chunk is not saved at two members (map), or not held at its home (copy), or at no up member (get).
 * 12: no id, sequence number, order number or view number is left.
 * 13: the brick is not up (crash), not down (rise), or there is none (lose) or one already (join) at the place; fewer than two bricks are up, or not more
 *     than half of those that the view began with (view); the bucket is ready or has no source (fetch), or is not fetched in this view or ready already
 *     (ready); the block is not mapped (send); a brick is down or no member, a bucket not ready, a block pending, or an item left (collect).
 * 14: no room at the backup (deliver).
 * 15: the primary's key is not the item's (done).
 *
 * A block is written by a proxy that has learned the view: put; copy of the key that it answers; savelog at both places that now hold the chunk, since map
 * asks for it saved at two members; map; send; deliver; savemap at the places of the bucket's primary and backup; done. copy writes to the member with the
 * next higher id than the home's, after the highest the lowest, whether or not that brick is of the bucket's pair; where no other member is, or it holds the
 * chunk, nothing changes.
 *
 * After a crash, a loss, a rise or a join: view; learn of each proxy; fetch and ready of each bucket; then mend of each place, which brings saved copies of
 * mapped chunks back to two members. mend goes by the keys in the primaries' memory: while a write of a block is under way (mapped, not yet done) its older,
 * confirmed chunk is not looked after. So mend when nothing is pending, and before the next brick is taken away. collect at each place now and then, when no
 * write is under way: it frees the room of chunks that are mapped no more.
 *
 * Each call checks the whole store first, as disk_check does: for many events disk_run checks it once, for many gets of a proxy disk_read. */
disk_step_answer disk_step(uint8_t *store, size_t store_length, uint64_t kind, uint64_t a, uint64_t b, uint64_t c, const uint8_t *data, size_t data_length,
                           const uint8_t *zero, size_t zero_length, uint8_t *answer, size_t answer_length);

/* An event of a kind that looks at no area: all kinds but put and get. A put or a get has no S bytes here: it answers 3, or 2 as every kind does. */
static inline disk_step_answer disk_do(uint8_t *store, size_t store_length, uint64_t kind, uint64_t a, uint64_t b, uint64_t c)
{
    uint8_t none = 0;
    return disk_step(store, store_length, kind, a, b, c, &none, 0, &none, 0, &none, 0);
}

/* A put, which looks at the data alone. */
static inline disk_step_answer disk_put(uint8_t *store, size_t store_length, uint64_t proxy, uint64_t place, uint64_t block, const uint8_t *data,
                                        size_t data_length)
{
    uint8_t none = 0;
    return disk_step(store, store_length, DISK_PUT, proxy, place, block, data, data_length, &none, 0, &none, 0);
}

/* A get, which looks at the zero block and the answer area alone. */
static inline disk_step_answer disk_get(uint8_t *store, size_t store_length, uint64_t proxy, uint64_t block, const uint8_t *zero, size_t zero_length,
                                        uint8_t *answer, size_t answer_length)
{
    uint8_t none = 0;
    return disk_step(store, store_length, DISK_GET, proxy, block, 0, &none, 0, zero, zero_length, answer, answer_length);
}

/* Many blocks of one proxy: each is answered as disk_get would answer it, in the given order, refused ones included; a block named twice is answered twice.
 * The store is checked once, for all of them, and no zero block is lent. block_count is the number of block numbers, which lie where C may place a uint64_t;
 * answers_length is in bytes.
 *
 * An answer has 9 + S bytes: the code in one, the key in eight, high byte first, and the block's S bytes; of a refused block the key is 0 and the bytes are
 * zeros. Answer i begins at answers[i * (9 + S)]; disk_answer_code, disk_answer_key and disk_answer_bytes read one. Bytes past the last answer do not change.
 *
 *  0: every block has its answer. A proxy out of range refuses each block with 3, not the call; a list of no blocks has no answers.
 *  2: the bytes are no sound store, as disk_check says.
 *  3: there are more than 64 block numbers, or answers_length is less than block_count * (9 + S). */
uint64_t disk_read(const uint8_t *store, size_t store_length, uint64_t proxy, const uint64_t *blocks, size_t block_count, uint8_t *answers,
                   size_t answers_length);

/* The code of answer i of disk_read, in a store of blocks of `size` bytes. */
static inline uint64_t disk_answer_code(const uint8_t *answers, size_t size, size_t i)
{
    return answers[i * (DISK_HEAD_BYTES + size)];
}

/* Its key. */
static inline uint64_t disk_answer_key(const uint8_t *answers, size_t size, size_t i)
{
    const uint8_t *head = answers + i * (DISK_HEAD_BYTES + size);
    uint64_t key = 0;
    for (size_t byte = 1; byte < DISK_HEAD_BYTES; byte++) key = key << 8 | head[byte];
    return key;
}

/* Its `size` bytes. */
static inline const uint8_t *disk_answer_bytes(const uint8_t *answers, size_t size, size_t i)
{
    return answers + i * (DISK_HEAD_BYTES + size) + DISK_HEAD_BYTES;
}

/* A list of events on a store: each in turn, on the store as the last one left it, with the code and the key that disk_step would answer. The store is
 * checked once, for the whole list; for one event call disk_step or those above.
 *
 * Both lengths are in 64-bit words: 5 for each event, 2 for each answer; disk_do_all counts them. Kind, a, b and c are as for disk_step. A put's data is
 * data[at .. at + S], a get's answer goes to area[at .. at + S]; other kinds do not look at `at`. No zero block is lent: each get is as one with S zeros.
 * The caller owns all five areas; the call writes the store, the answers and, for each accepted get, its S bytes of the area, and nothing else: what no
 * event fills keeps its bytes. Blocks of the area may overlap; a later get then fills over an earlier one's.
 *
 *  0: answers[i] is the code and the key of events[i], for every i, refused events included: they change nothing, and the list goes on. A put whose block
 *     reaches past the data, or a get whose block reaches past the area, is answered 3.
 *  2: the bytes are no sound store, as disk_check says.
 *  3: event_words is no multiple of 5, or answer_words is not 2 for each event. */
uint64_t disk_run(uint8_t *store, size_t store_length, const disk_event *events, size_t event_words, const uint8_t *data, size_t data_length, uint8_t *area,
                  size_t area_length, disk_step_answer *answers, size_t answer_words);

/* A list of `count` events: disk_run, with the lengths in words. It answers 0 or 2. */
static inline uint64_t disk_do_all(uint8_t *store, size_t store_length, const disk_event *events, size_t count, const uint8_t *data, size_t data_length,
                                   uint8_t *area, size_t area_length, disk_step_answer *answers)
{
    return disk_run(store, store_length, events, 5 * count, data, data_length, area, area_length, answers, 2 * count);
}

/* The relays that are under way, oldest first: a relay's index is that of deliver and drop. relays_count is the number of records lent, which lie where C
 * may place a disk_relay; DISK_MOST_RELAYS are always enough.
 * 0: relays[0 .. count] is the store's bag. The records after it have not changed.
 * 2: the bytes are no sound store.
 * 3: fewer records are lent than there are relays in the bag. */
disk_bag_answer disk_bag(const uint8_t *store, size_t store_length, disk_relay *relays, size_t relays_count);

/* Whether two stores are alike: same settings, view and members and, for each bucket, the same blocks and keys in the primary's memory. They may be the
 * same bytes. The number is no question's but for 2; it is what cmp and diff answer.
 * 0: they are alike. 1: they are not. 2: one of them is not a sound store. */
uint64_t disk_alike(const uint8_t *store, size_t store_length, const uint8_t *other, size_t other_length);

/* The event of a line of text, in a store of blocks of `size` bytes. The line's last byte, line[line_length - 1], is its line feed.
 * 0: the line is an event's; for a put, its data is in data[0 .. size]. For every other kind the data area is not looked at and may have any length.
 * 3: the line is no event's, or it is a put's and data_length is not size. */
disk_event_answer disk_parse(const uint8_t *line, size_t line_length, size_t size, uint8_t *data, size_t data_length);

/* The line of text of an event. Numbers that the kind does not have, and data where it has none, are not looked at.
 * 0: the line is in line[0 .. length], its line feed last; the bytes after it have not changed.
 * 3: the kind is not 1 to DISK_KINDS, or it is a put's and data_length is not size, or the line would have more than 16,500 bytes or more than line_length. */
disk_line_answer disk_print(uint64_t kind, uint64_t a, uint64_t b, uint64_t c, const uint8_t *data, size_t data_length, size_t size, uint8_t *line,
                            size_t line_length);

/* The settings of the settings line N,S,M,L, whose last byte is its line feed.
 * 0: the line is four numbers below 2^64; whether they are within the limits is asked by format.
 * 3: it is not. */
disk_settings_answer disk_parse_settings(const uint8_t *line, size_t line_length);

/* What a code says: a constant text, for every number. The numbers of disk_length and disk_alike are no codes. */
static inline const char *disk_code_text(uint64_t code)
{
    static const char *const texts[] = {
        "done",
        "a setting is outside its limits, or the memory has another length",
        "the store is not sound",
        "no such kind, or a field, an area or a line is not as it must be",
        "the block is not the proxy's",
        "the proxy does not know the present view",
        "the brick needed is no up member",
        "the bucket is not ready",
        "the block is pending or waits in the buffer",
        "the block has an item already, or has none",
        "no room",
        "the chunk is not held or saved where it must be",
        "no number is left",
        "the bricks, the bucket or the block are not in the state for it",
        "no room at the backup",
        "the primary's key is not the item's",
    };
    return code < sizeof texts / sizeof texts[0] ? texts[code] : "no such code";
}

#ifdef __cplusplus
}
#endif

#endif
