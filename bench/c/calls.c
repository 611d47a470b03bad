/* One call at a time, held to what the header promises. */
#define _DEFAULT_SOURCE
#include "bench.h"

#include <stdarg.h>
#include <stdio.h>
#include <stdlib.h>
#include <string.h>
#include <sys/mman.h>
#include <unistd.h>

enum { CREATE, ENVIRONMENT, LOAD, STEP, RUN, RESPOND, END, READ, CALLS };

static const char *const names[CALLS] = {"create", "env", "load", "step", "run", "respond", "end", "read"};
static const uint8_t numbers[] = {0, 1, 2, 3, 4, 5, 6, 7, 16, 17, 18, 19, 22, 32, 33, 34, 35};

/* The numbers that each call may answer, as the table of document 01 gives them. */
static const char *const allowed[CALLS] = {
    "0 32",
    "0 18 19 32 33 35",
    "0 1 2 3 4 5 6 7 32 33 35",
    "0 16 17 18 19 22 32 33 35",
    "0 16 17 18 19 22 32 33 35",
    "0 17 18 32 33 34 35",
    "0 32 33 35",
    "0 17 32 35",
};

static uint64_t made, met[CALLS][256];
static uint8_t before[STATE_LENGTH];
static uint8_t lent[LENT_COMMAND];
static uint8_t handed[65536];

void expect(bool holds, const char *format, ...) {
    if (holds) {
        return;
    }
    va_list words;
    va_start(words, format);
    fprintf(stderr, "call %llu: ", (unsigned long long)calls_made());
    vfprintf(stderr, format, words);
    fputc('\n', stderr);
    va_end(words);
    exit(1);
}

uint8_t *lend(size_t length) {
    size_t page = (size_t)sysconf(_SC_PAGESIZE);
    size_t whole = (length + page - 1) / page * page;
    uint8_t *start = mmap(NULL, whole + 2 * page, PROT_NONE, MAP_PRIVATE | MAP_ANONYMOUS, -1, 0);
    expect(start != MAP_FAILED, "no memory");
    expect(mprotect(start + page, whole, PROT_READ | PROT_WRITE) == 0, "no memory");
    return start + page + whole - length;
}

uint64_t calls_made(void) {
    return made;
}

void print_answers(void) {
    printf("answer %9s", "all");
    for (size_t call = 0; call < CALLS; call++) {
        printf(" %9s", names[call]);
    }
    for (size_t i = 0; i < sizeof numbers; i++) {
        uint64_t all = 0;
        for (size_t call = 0; call < CALLS; call++) {
            all += met[call][numbers[i]];
        }
        printf("\n%6u %9llu", (unsigned)numbers[i], (unsigned long long)all);
        for (size_t call = 0; call < CALLS; call++) {
            printf(" %9llu", (unsigned long long)met[call][numbers[i]]);
        }
    }
    putchar('\n');
}

static bool may_answer(int call, unsigned answer) {
    char word[8];
    snprintf(word, sizeof word, " %u ", answer);
    char list[64];
    snprintf(list, sizeof list, " %s ", allowed[call]);
    return strstr(list, word) != NULL;
}

/* All as it was: every answer but 0 and those that end a page. */
static bool keeps(unsigned answer) {
    return answer != 0 && (answer < USAT_SYNTAX || answer > USAT_DISALLOWED);
}

/* A null pointer may stand for no bytes, which the library's own functions do not take. */
static bool same(const uint8_t *one, const uint8_t *other, size_t length) {
    return length == 0 || memcmp(one, other, length) == 0;
}

static void copy(uint8_t *to, const uint8_t *from, size_t length) {
    if (length > 0) {
        memcpy(to, from, length);
    }
}

static size_t least(size_t one, size_t other) {
    return one < other ? one : other;
}

static void remember(const uint8_t *state, size_t length) {
    copy(before, state, least(length, sizeof before));
}

/* The answer is one of the call's, 32 exactly where a lent buffer does not fit, and what must stay stays byte for byte. */
static void settle(int call, uint64_t result, const uint8_t *state, size_t length, bool fits, bool kept) {
    unsigned answer = USAT_ANSWER(result);
    made++;
    met[call][answer]++;
    expect(may_answer(call, answer), "%s answers %u", names[call], answer);
    expect((answer == USAT_BUFFER) == (length != STATE_LENGTH || !fits), "%s: a state of %zu bytes answers %u", names[call], length, answer);
    if (kept || keeps(answer)) {
        expect(same(before, state, least(length, sizeof before)), "%s: answer %u changes the state", names[call], answer);
    }
}

/* An answer of nothing but a number. */
static void settle_plain(int call, uint64_t result, const uint8_t *state, size_t length, bool kept) {
    settle(call, result, state, length, true, kept);
    expect(result == USAT_ANSWER(result), "%s: bits beside the answer", names[call]);
}

static void settle_handed(int call, const uint8_t *bytes, size_t length) {
    expect(same(handed, bytes, least(length, sizeof handed)), "%s: what was handed in is written", names[call]);
}

static void hand_in(const uint8_t *bytes, size_t length) {
    copy(handed, bytes, least(length, sizeof handed));
}

/* The outcome fits the answer, and the command buffer holds a command exactly where one went out. */
static void settle_outcome(int call, uint64_t result, const uint8_t *command, size_t command_length) {
    unsigned answer = USAT_ANSWER(result), outcome = USAT_OUTCOME(result), size = USAT_SIZE(result);
    expect((answer == 0) == (outcome < USAT_REFUSED) && outcome <= USAT_REFUSED, "%s: answer %u, outcome %u", names[call], answer, outcome);
    if (outcome != USAT_COMMAND) {
        expect(size == 0, "%s: a length without a command", names[call]);
        expect(same(lent, command, command_length), "%s: the command buffer is written", names[call]);
        return;
    }
    expect(size >= 11 && size <= 255, "%s: a command of %u bytes", names[call], size);
    expect(same(lent + size, command + size, command_length - size), "%s: bytes behind the command are written", names[call]);
    size_t head = command[1] < 0x80 ? 2 : 3;
    size_t value = head == 2 ? command[1] : command[2];
    expect(command[0] == 0xD0 && (head == 2 || (command[1] == 0x81 && value > 0x7F)) && head + value == size, "%s: a command of another length", names[call]);
    const uint8_t *details = command + head;
    expect(details[0] == 0x81 && details[1] == 3 && details[2] == 1 && details[5] == 0x82 && details[6] == 2 && details[7] == 0x81, "%s: a command with another head", names[call]);
}

static void lend_command(const uint8_t *command, size_t length) {
    expect(length <= sizeof lent, "a command buffer of %zu", length);
    copy(lent, command, length);
}

uint64_t call_create(uint8_t *state, size_t length) {
    remember(state, length);
    uint64_t result = usat_create(state, length);
    settle_plain(CREATE, result, state, length, false);
    return result;
}

uint64_t call_environment(uint8_t *state, size_t length, uint8_t number, const uint8_t *value, size_t value_length) {
    remember(state, length);
    hand_in(value, value_length);
    uint64_t result = usat_set_environment(state, length, number, value, value_length);
    settle_plain(ENVIRONMENT, result, state, length, USAT_ANSWER(result) != 0);
    settle_handed(ENVIRONMENT, value, value_length);
    return result;
}

uint64_t call_load(uint8_t *state, size_t length, const uint8_t *page, size_t page_length) {
    remember(state, length);
    hand_in(page, page_length);
    uint64_t result = usat_load(state, length, page, page_length);
    settle(LOAD, result, state, length, true, false);
    settle_handed(LOAD, page, page_length);
    unsigned answer = USAT_ANSWER(result), offset = USAT_SIZE(result);
    bool faulty = answer >= USAT_PAGE_SIZE && answer <= USAT_BEYOND_BASE;
    expect(result == (answer | (uint64_t)offset << 16), "load: bits beside answer and offset");
    expect(offset <= (faulty && answer != USAT_PAGE_SIZE ? page_length : 0), "load: answer %u at %u of %zu", answer, offset, page_length);
    return result;
}

uint64_t call_step(uint8_t *state, size_t length, uint8_t *command, size_t command_length) {
    remember(state, length);
    lend_command(command, command_length);
    uint64_t result = usat_step(state, length, command, command_length);
    settle(STEP, result, state, length, command_length >= USAT_COMMAND_LENGTH, false);
    settle_outcome(STEP, result, command, command_length);
    expect(result >> 48 == 0, "step: bits above the tag");
    expect(USAT_ANSWER(result) < USAT_BUFFER || result >> 32 == 0, "step: unit and tag without a step");
    expect(USAT_UNIT(result) < 64, "step: unit %u", USAT_UNIT(result));
    return result;
}

uint64_t call_run(uint8_t *state, size_t length, uint32_t most, uint8_t *command, size_t command_length) {
    remember(state, length);
    lend_command(command, command_length);
    uint64_t result = usat_run(state, length, most, command, command_length);
    settle(RUN, result, state, length, command_length >= USAT_COMMAND_LENGTH, most == 0);
    settle_outcome(RUN, result, command, command_length);
    uint32_t count = USAT_COUNT(result);
    expect(count <= most, "run: %lu of %lu steps", (unsigned long)count, (unsigned long)most);
    expect(USAT_ANSWER(result) < USAT_BUFFER || count == 0, "run: steps in spite of %u", USAT_ANSWER(result));
    expect(USAT_OUTCOME(result) != USAT_GONE_ON || count == most, "run: goes on after %lu of %lu steps", (unsigned long)count, (unsigned long)most);
    return result;
}

uint64_t call_respond(uint8_t *state, size_t length, const uint8_t *response, size_t response_length, uint8_t *command, size_t command_length) {
    remember(state, length);
    hand_in(response, response_length);
    lend_command(command, command_length);
    uint64_t result = usat_respond(state, length, response, response_length, command, command_length);
    settle(RESPOND, result, state, length, command_length >= USAT_COMMAND_LENGTH, false);
    settle_handed(RESPOND, response, response_length);
    settle_outcome(RESPOND, result, command, command_length);
    expect(result >> 32 == 0, "respond: bits above the length");
    expect(USAT_ANSWER(result) != 0 || (response_length >= 1 && response_length <= 255), "respond: takes %zu bytes", response_length);
    return result;
}

uint64_t call_end(uint8_t *state, size_t length) {
    remember(state, length);
    uint64_t result = usat_end(state, length);
    settle_plain(END, result, state, length, false);
    return result;
}

uint64_t call_read(const uint8_t *state, size_t length, uint8_t number, const uint8_t *service, size_t service_length, uint8_t *value, size_t value_length) {
    remember(state, length);
    hand_in(service, service_length);
    lend_command(value, value_length);
    uint64_t result = usat_read(state, length, number, service, service_length, value, value_length);
    settle(READ, result, state, length, value_length >= USAT_VALUE_LENGTH, true);
    settle_handed(READ, service, service_length);
    if (USAT_ANSWER(result) != 0) {
        expect(result == USAT_ANSWER(result), "read: bits beside the answer");
        expect(same(lent, value, value_length), "read: the value buffer is written");
        return result;
    }
    unsigned size = USAT_SIZE(result);
    expect(USAT_TYPE(result) <= USAT_UCS2 && size <= 255 && result >> 32 == 0, "read: type %u, length %u", USAT_TYPE(result), size);
    for (size_t i = size; i < USAT_VALUE_LENGTH; i++) {
        expect(value[i] == 0, "read: no zero behind the value");
    }
    expect(same(lent + 255, value + 255, value_length - 255), "read: bytes behind the value's 255 are written");
    return result;
}

static int digit(char c) {
    const char *digits = "0123456789abcdef";
    const char *found = strchr(digits, c >= 'A' && c <= 'F' ? c - 'A' + 'a' : c);
    return c != 0 && found != NULL ? (int)(found - digits) : -1;
}

size_t unhex(const char *digits, uint8_t *bytes, size_t room) {
    size_t n = 0;
    while (*digits != 0) {
        if (*digits == ' ') {
            digits++;
            continue;
        }
        int high = digit(digits[0]), low = digit(digits[1]);
        expect(high >= 0 && low >= 0 && n < room, "no hex: %s", digits);
        bytes[n++] = (uint8_t)(high * 16 + low);
        digits += 2;
    }
    return n;
}
