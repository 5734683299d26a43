/* The calls on text, in areas that end with the line or with the room for it; and the rules' printed trace. */
#include "lent.h"

#include <inttypes.h>
#include <stdio.h>
#include <string.h>

enum { SIZE = 8 };

static const uint8_t data_of_put[SIZE] = {0x00, 0x01, 0x9f, 0xa0, 0xff, 0x10, 0x2b, 0xc3};

/* An event of each kind, with its line. */
static const struct {
    disk_event_answer event;
    const char *line;
} rows[] = {
    {{DISK_OK, DISK_PUT, 3, 7, 2251799813685247}, "put,3,7,2251799813685247,00019fa0ff102bc3\n"},
    {{DISK_OK, DISK_COPY, 72057594037927936, 0, 0}, "copy,72057594037927936\n"},
    {{DISK_OK, DISK_SAVELOG, 0, 0, 0}, "savelog,0\n"},
    {{DISK_OK, DISK_MAP, 0, 5, 0}, "map,0,5\n"},
    {{DISK_OK, DISK_SEND, 10, 0, 0}, "send,10\n"},
    {{DISK_OK, DISK_DELIVER, 63, 0, 0}, "deliver,63\n"},
    {{DISK_OK, DISK_DROP, 0, 0, 0}, "drop,0\n"},
    {{DISK_OK, DISK_SAVEMAP, 2, 0, 0}, "savemap,2\n"},
    {{DISK_OK, DISK_DONE, 1, 562949953421312, 0}, "done,1,562949953421312\n"},
    {{DISK_OK, DISK_GET, 0, 5, 0}, "get,0,5\n"},
    {{DISK_OK, DISK_ABANDON, 0, 100, 0}, "abandon,0,100\n"},
    {{DISK_OK, DISK_LEARN, 9, 0, 0}, "learn,9\n"},
    {{DISK_OK, DISK_RESET, UINT64_MAX, 0, 0}, "reset,18446744073709551615\n"},
    {{DISK_OK, DISK_CRASH, 0, 0, 0}, "crash,0\n"},
    {{DISK_OK, DISK_LOSE, 1, 0, 0}, "lose,1\n"},
    {{DISK_OK, DISK_RISE, 2, 0, 0}, "rise,2\n"},
    {{DISK_OK, DISK_JOIN, 3, 0, 0}, "join,3\n"},
    {{DISK_OK, DISK_VIEW, 0, 0, 0}, "view\n"},
    {{DISK_OK, DISK_FETCH, 15, 0, 0}, "fetch,15\n"},
    {{DISK_OK, DISK_READY, 15, 0, 0}, "ready,15\n"},
    {{DISK_OK, DISK_MEND, 4, 0, 0}, "mend,4\n"},
    {{DISK_OK, DISK_COLLECT, 5, 0, 0}, "collect,5\n"},
};
_Static_assert(COUNT(rows) == DISK_KINDS, "an event of each kind");

static bool same_event(disk_event_answer one, disk_event_answer other)
{
    return one.code == other.code && one.kind == other.kind && one.a == other.a && one.b == other.b && one.c == other.c;
}

static area lend_text(position position, const char *text, size_t length)
{
    area line = lend(position, length);
    memcpy(line.bytes, text, length);
    seal(&line);
    return line;
}

static void expect_no_event(position position, const char *text, size_t length, size_t room)
{
    static const disk_event_answer none = {DISK_BAD_INPUT, 0, 0, 0, 0};
    area line = lend_text(position, text, length), data = lend(position, room);
    uint8_t *old = bytes_of(&data);
    EXPECT(same_event(disk_parse(line.bytes, line.length, SIZE, data.bytes, data.length), none) && same_since(&data, old));
    take_back(&line);
    take_back(&data);
}

/* Each line is its event; no shorter part of it is one. */
static void lines_are_read(position position)
{
    for (size_t i = 0; i < COUNT(rows); i++) {
        size_t length = strlen(rows[i].line), room = rows[i].event.kind == DISK_PUT ? SIZE : 0;
        area line = lend_text(position, rows[i].line, length), data = lend(position, room);
        EXPECT(same_event(disk_parse(line.bytes, line.length, SIZE, data.bytes, data.length), rows[i].event));
        EXPECT(memcmp(data.bytes, data_of_put, room) == 0);
        take_back(&line);
        take_back(&data);
        for (size_t part = 0; part < length; part++)
            expect_no_event(position, rows[i].line, part, SIZE);
    }
}

static void other_lines_are_refused(position position)
{
    static const char *const lines[] = {
        "\n", "view\r\n", "view,\n", "View\n", "views\n", " view\n", "view \n", "view\n\n", "learn\n", "learn,\n", "learn,00\n", "learn,01\n", "learn,+1\n",
        "learn,-1\n", "learn,0,0\n", "learn,18446744073709551616\n", "learn,99999999999999999999999\n", "put,0,0,5,A1A1A1A1A1A1A1A1\n",
        "put,0,0,5,a1a1a1a1a1a1a1\n", "put,0,0,5,a1a1a1a1a1a1a1a1a1\n", "put,0,0,5,a1a1a1a1a1a1a1a\n", "put,0,0,5\n", "nothing,0\n",
    };
    for (size_t i = 0; i < COUNT(lines); i++)
        expect_no_event(position, lines[i], strlen(lines[i]), SIZE);
    for (size_t room = 0; room <= 2 * SIZE; room++)
        if (room != SIZE)
            expect_no_event(position, rows[0].line, strlen(rows[0].line), room);
}

/* A line goes into room that is long enough, and its bytes are all that is written. */
static void lines_are_written(position position)
{
    area data = lend_text(position, (const char *)data_of_put, SIZE);
    for (size_t i = 0; i < COUNT(rows); i++) {
        disk_event_answer event = rows[i].event;
        size_t length = strlen(rows[i].line), data_length = event.kind == DISK_PUT ? SIZE : 0;
        for (size_t room = 0; room <= length + 2; room++) {
            area line = lend(position, room);
            memset(line.bytes, '#', room);
            disk_line_answer told = disk_print(event.kind, event.a, event.b, event.c, data.bytes, data_length, SIZE, line.bytes, line.length);
            size_t written = room < length ? 0 : length;
            EXPECT(told.code == (room < length ? DISK_BAD_INPUT : DISK_OK) && told.length == written);
            EXPECT(memcmp(line.bytes, rows[i].line, written) == 0);
            for (size_t rest = written; rest < room; rest++)
                EXPECT(line.bytes[rest] == '#');
            take_back(&line);
        }
    }
    take_back(&data);
}

static void other_events_are_refused(position position)
{
    static const uint64_t kinds[] = {0, DISK_KINDS + 1, 256 + DISK_VIEW, UINT64_MAX};
    area data = lend_text(position, (const char *)data_of_put, SIZE), line = lend(position, 100);
    uint8_t *old = bytes_of(&line);
    for (size_t i = 0; i < COUNT(kinds); i++)
        EXPECT(disk_print(kinds[i], 0, 0, 0, data.bytes, SIZE, SIZE, line.bytes, line.length).code == DISK_BAD_INPUT);
    for (size_t length = 0; length < SIZE; length++)
        EXPECT(disk_print(DISK_PUT, 0, 0, 5, data.bytes, length, SIZE, line.bytes, line.length).code == DISK_BAD_INPUT);
    EXPECT(same_since(&line, old));
    take_back(&data);
    take_back(&line);
}

/* With data of 8,192 bytes a put is within the longest line; with 8,300 it is not. */
static void long_lines(position position)
{
    static const size_t sizes[] = {8192, 8300};
    for (size_t i = 0; i < COUNT(sizes); i++) {
        bool taken = sizes[i] == 8192;
        area data = lend(position, sizes[i]), line = lend(position, 20000), read = lend(position, sizes[i]);
        memset(data.bytes, 0xb4, data.length);
        disk_line_answer told = disk_print(DISK_PUT, 0, 0, 5, data.bytes, data.length, sizes[i], line.bytes, line.length);
        EXPECT(told.code == (taken ? DISK_OK : DISK_BAD_INPUT) && told.length == (taken ? strlen("put,0,0,5,\n") + 2 * sizes[i] : 0));
        EXPECT(told.length <= DISK_LONGEST_LINE);
        EXPECT(disk_parse(line.bytes, told.length, sizes[i], read.bytes, read.length).code == told.code);
        EXPECT(!taken || memcmp(read.bytes, data.bytes, data.length) == 0);
        take_back(&data);
        take_back(&line);
        take_back(&read);
    }
}

static void settings_lines(position position)
{
    static const struct {
        const char *line;
        disk_settings_answer settings;
    } lines[] = {
        {"3,8,2,4\n", {DISK_OK, 3, 8, 2, 4}},
        {"0,18446744073709551615,1,65537\n", {DISK_OK, 0, UINT64_MAX, 1, 65537}},
        {"3,8,2,4", {DISK_BAD_INPUT, 0, 0, 0, 0}},
        {"3,8,2\n", {DISK_BAD_INPUT, 0, 0, 0, 0}},
        {"3,8,2,4,5\n", {DISK_BAD_INPUT, 0, 0, 0, 0}},
        {"3,08,2,4\n", {DISK_BAD_INPUT, 0, 0, 0, 0}},
        {"3,8,2,18446744073709551616\n", {DISK_BAD_INPUT, 0, 0, 0, 0}},
        {"\n", {DISK_BAD_INPUT, 0, 0, 0, 0}},
        {"", {DISK_BAD_INPUT, 0, 0, 0, 0}},
    };
    for (size_t i = 0; i < COUNT(lines); i++) {
        area line = lend_text(position, lines[i].line, strlen(lines[i].line));
        disk_settings_answer told = disk_parse_settings(line.bytes, line.length), expected = lines[i].settings;
        EXPECT(told.code == expected.code && told.places == expected.places && told.size == expected.size && told.entries == expected.entries &&
               told.chunks == expected.chunks);
        take_back(&line);
    }
}

/* One line of a trace: its number, code, key, and the data of a get. */
static void trace_line(lent *lent, position position, size_t number, const char *text, char *shown)
{
    area line = lend_text(position, text, strlen(text));
    unseal(&lent->data);
    disk_event_answer event = disk_parse(line.bytes, line.length, lent->settings.size, lent->data.bytes, lent->data.length);
    seal(&lent->data);
    EXPECT(event.code == DISK_OK);
    disk_step_answer told = step(lent, event.kind, event.a, event.b, event.c);
    shown += sprintf(shown, "%zu,%" PRIu64 ",%" PRIu64 ",", number, told.code, told.key);
    bool get = event.kind == DISK_GET && told.code == DISK_OK;
    for (size_t i = 0; get && i < lent->answer.length; i++)
        shown += sprintf(shown, "%02x", lent->answer.bytes[i]);
    strcpy(shown, get ? "" : "-");
    take_back(&line);
}

static void printed_trace(position position)
{
    static const char *const trace[][2] = {
        {"learn,0\n", "1,0,0,-"},
        {"get,0,5\n", "2,0,0,0000000000000000"},
        {"put,0,0,5,a1a1a1a1a1a1a1a1\n", "3,0,72057594037927936,-"},
        {"copy,72057594037927936\n", "4,0,0,-"},
        {"savelog,0\n", "5,0,0,-"},
        {"savelog,1\n", "6,0,0,-"},
        {"map,0,5\n", "7,0,0,-"},
        {"get,0,5\n", "8,8,0,-"},
    };
    lent lent = formatted(position, least);
    for (size_t i = 0; i < COUNT(trace); i++) {
        char shown[100];
        trace_line(&lent, position, i + 1, trace[i][0], shown);
        EXPECT(strcmp(shown, trace[i][1]) == 0);
    }
    end(&lent);
}

static void text(position position)
{
    lines_are_read(position);
    other_lines_are_refused(position);
    lines_are_written(position);
    other_events_are_refused(position);
    long_lines(position);
    settings_lines(position);
    printed_trace(position);
}

int main(void)
{
    in_every_position(text);
    return 0;
}
