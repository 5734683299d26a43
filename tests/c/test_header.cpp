// The header in C++: every call and every helper once.
#include "disk.h"

#include <cstdio>
#include <cstring>
#include <vector>

static int failed = 0;

static void expect(bool holds, const char *what)
{
    if (holds)
        return;
    std::fprintf(stderr, "does not hold: %s\n", what);
    failed = 1;
}

static void store_calls()
{
    std::vector<uint8_t> store(disk_length(3, 8, 2, 4));
    const uint8_t data[8] = {1, 2, 3, 4, 5, 6, 7, 8}, zero[8] = {0};
    uint8_t answer[8];
    expect(store.size() == 11720, "length");
    expect(disk_format(store.data(), store.size(), 3, 8, 2, 4) == DISK_OK, "format");
    expect(disk_check(store.data(), store.size()) == DISK_OK, "check");
    const disk_step_answer learnt = disk_step(store.data(), store.size(), DISK_LEARN, 0, 0, 0, data, 0, zero, 0, answer, 0);
    expect(learnt.code == DISK_OK && learnt.key == 0, "step");
    const disk_step_answer put = disk_put(store.data(), store.size(), 0, 0, 5, data, sizeof data);
    expect(put.code == DISK_OK && put.key == (uint64_t)1 << 56, "put");
    expect(disk_do(store.data(), store.size(), DISK_SAVELOG, 0, 0, 0).code == DISK_OK, "do");
    const disk_step_answer get = disk_get(store.data(), store.size(), 0, 5, zero, sizeof zero, answer, sizeof answer);
    expect(get.code == DISK_OK && get.key == 0 && std::memcmp(answer, zero, sizeof zero) == 0, "get");
    const disk_event events[2] = {{DISK_GET, 0, 6, 0, 0}, {DISK_PUT, 0, 0, 6, 0}};
    disk_step_answer told[2];
    expect(disk_run(store.data(), store.size(), events, 5, data, 0, answer, sizeof answer, told, 2) == DISK_OK && told[0].code == DISK_OK, "run");
    expect(disk_do_all(store.data(), store.size(), events, 2, data, sizeof data, answer, 0, told) == DISK_OK, "do all");
    expect(told[0].code == DISK_BAD_INPUT && told[1].key == ((uint64_t)1 << 56) + 1, "do all");
    const uint64_t blocks[2] = {5, 1ull << 49};
    uint8_t answers[2 * (DISK_HEAD_BYTES + 8)];
    expect(disk_read(store.data(), store.size(), 0, blocks, 2, answers, sizeof answers) == DISK_OK, "read");
    expect(disk_answer_code(answers, 8, 0) == DISK_OK && disk_answer_code(answers, 8, 1) == DISK_WRONG_PROXY, "answer code");
    expect(disk_answer_key(answers, 8, 0) == 0 && std::memcmp(disk_answer_bytes(answers, 8, 0), zero, sizeof zero) == 0, "answer key and bytes");
    disk_relay relays[DISK_MOST_RELAYS];
    const disk_bag_answer bag = disk_bag(store.data(), store.size(), relays, DISK_MOST_RELAYS);
    expect(bag.code == DISK_OK && bag.count == 0, "bag");
    expect(disk_alike(store.data(), store.size(), store.data(), store.size()) == 0, "alike");
}

static void text_calls()
{
    const char *line = "map,0,5\n", *settings = "3,8,2,4\n";
    uint8_t data[8] = {0}, printed[DISK_LONGEST_LINE];
    const disk_event_answer event = disk_parse((const uint8_t *)line, std::strlen(line), sizeof data, data, sizeof data);
    expect(event.code == DISK_OK && event.kind == DISK_MAP && event.a == 0 && event.b == 5 && event.c == 0, "parse");
    const disk_line_answer text = disk_print(event.kind, event.a, event.b, event.c, data, 0, sizeof data, printed, sizeof printed);
    expect(text.code == DISK_OK && text.length == std::strlen(line) && std::memcmp(printed, line, text.length) == 0, "print");
    const disk_settings_answer read = disk_parse_settings((const uint8_t *)settings, std::strlen(settings));
    expect(read.code == DISK_OK && read.places == 3 && read.size == 8 && read.entries == 2 && read.chunks == 4, "parse settings");
    expect(std::strcmp(disk_code_text(DISK_OK), "done") == 0, "code text");
}

int main()
{
    store_calls();
    text_calls();
    return failed;
}
