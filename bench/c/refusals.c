/* The order of refusals: 32, 35, 33, 34, then the page's own. And null pointers of length 0. */
#include "bench.h"

#include <stdio.h>
#include <string.h>

static uint8_t *state, *command, *value;
static uint8_t page[PAGE_MOST];

static const char exits[] = "010a 020141 0a05 0b0131 4500";
static const char sends[] = "0114 020141 0a0f 0b0131 4608 218002 8d0304 4869 4500";
static const char result[] = "83 01 00";

static void expect_answer(const char *what, uint64_t number, unsigned answer) {
    expect(USAT_ANSWER(number) == answer, "%s: %u, not %u", what, USAT_ANSWER(number), answer);
}

static size_t load(const char *digits) {
    size_t length = unhex(digits, page, sizeof page);
    call_create(state, STATE_LENGTH);
    expect_answer("a page to start from", call_load(state, STATE_LENGTH, page, length), 0);
    return length;
}

/* A page that has sent its command and waits. */
static void await(void) {
    load(sends);
    uint64_t number = call_step(state, STATE_LENGTH, command, LENT_COMMAND);
    expect(USAT_OUTCOME(number) == USAT_COMMAND && USAT_SIZE(number) == 16, "no command");
}

static void try_all(const char *what, size_t length, size_t command_length, unsigned answer) {
    uint8_t response[8];
    size_t n = unhex(result, response, sizeof response);
    size_t m = unhex(exits, page, sizeof page);
    expect_answer(what, call_step(state, length, command, command_length), answer);
    expect_answer(what, call_run(state, length, 1, command, command_length), answer);
    expect_answer(what, call_run(state, length, 0, command, command_length), answer);
    expect_answer(what, call_respond(state, length, response, n, command, command_length), answer);
    expect_answer(what, call_respond(state, length, response, 0, command, command_length), answer);
    if (command_length < USAT_COMMAND_LENGTH) {
        return;
    }
    expect_answer(what, call_load(state, length, page, m), answer);
    expect_answer(what, call_load(state, length, page, 0), answer);
    expect_answer(what, call_environment(state, length, 0x41, page, 1), answer);
    expect_answer(what, call_end(state, length), answer);
    expect_answer(what, call_read(state, length, 0x80, page, 0, value, LENT_VALUE), answer);
}

/* A state of another length gets 32, a creation too, whatever it holds; so does a short command buffer. */
static void try_32(void) {
    const size_t lengths[] = {0, 1, 255, STATE_LENGTH - 1, STATE_LENGTH + 1, STATE_LENGTH + 4096};
    for (size_t i = 0; i < sizeof lengths / sizeof *lengths; i++) {
        uint8_t *other = lend(lengths[i]), *keep = state;
        memset(other, 0xA5, lengths[i]);
        expect_answer("create in a state of another length", call_create(other, lengths[i]), USAT_BUFFER);
        state = other;
        try_all("32 before 35", lengths[i], LENT_COMMAND, USAT_BUFFER);
        state = keep;
    }
    memset(state, 0xA5, STATE_LENGTH);
    try_all("32 before 35", STATE_LENGTH, 254, USAT_BUFFER);
    expect_answer("32 before 35", call_read(state, STATE_LENGTH, 5, page, 0, value, 254), USAT_BUFFER);
    call_create(state, STATE_LENGTH);
    try_all("32 before 33", STATE_LENGTH, 254, USAT_BUFFER);
    expect_answer("32 before 17", call_read(state, STATE_LENGTH, 0x80, page, 0, value, 254), USAT_BUFFER);
    await();
    uint8_t none = 0;
    expect_answer("32 before 34", call_respond(state, STATE_LENGTH, &none, 0, command, 254), USAT_BUFFER);
    expect_answer("32 before 34", call_respond(state, STATE_LENGTH, &none, 1, command, 0), USAT_BUFFER);
}

/* What is no card gets 35, whether the call would fit or not. */
static void try_35(void) {
    memset(state, 0xA5, STATE_LENGTH);
    try_all("35 before 33", STATE_LENGTH, LENT_COMMAND, USAT_STATE);
    call_create(state, STATE_LENGTH);
    state[AT_GUARD + 17] = 1;
    try_all("35 before 33", STATE_LENGTH, LENT_COMMAND, USAT_STATE);
    await();
    state[AT_UNIT] = 1;
    try_all("35 before 34", STATE_LENGTH, LENT_COMMAND, USAT_STATE);
}

static void try_33(void) {
    uint8_t response[8], none = 0;
    size_t n = unhex(result, response, sizeof response);
    call_create(state, STATE_LENGTH);
    expect_answer("33 before 34", call_respond(state, STATE_LENGTH, &none, 0, command, LENT_COMMAND), USAT_CALL);
    expect_answer("no page: respond", call_respond(state, STATE_LENGTH, response, n, command, LENT_COMMAND), USAT_CALL);
    expect_answer("no page: step", call_step(state, STATE_LENGTH, command, LENT_COMMAND), USAT_CALL);
    expect_answer("no page: run", call_run(state, STATE_LENGTH, 0, command, LENT_COMMAND), USAT_CALL);
    expect_answer("no page: end", call_end(state, STATE_LENGTH), USAT_CALL);
    size_t m = load(exits);
    expect_answer("33 before 34", call_respond(state, STATE_LENGTH, &none, 1, command, LENT_COMMAND), USAT_CALL);
    expect_answer("a page runs: load", call_load(state, STATE_LENGTH, page, m), USAT_CALL);
    expect_answer("33 before 1", call_load(state, STATE_LENGTH, page, 0), USAT_CALL);
    expect_answer("33 before 2", call_load(state, STATE_LENGTH, page, m - 1), USAT_CALL);
    expect_answer("33 before 19", call_environment(state, STATE_LENGTH, 0x41, page, 1), USAT_CALL);
    await();
    expect_answer("a response is awaited: step", call_step(state, STATE_LENGTH, command, LENT_COMMAND), USAT_CALL);
    expect_answer("a response is awaited: run", call_run(state, STATE_LENGTH, 0, command, LENT_COMMAND), USAT_CALL);
    expect_answer("a response is awaited: load", call_load(state, STATE_LENGTH, page, m), USAT_CALL);
}

/* A response that is malformed or of another length gets 34, and the page still waits. */
static void try_34(void) {
    static const char *const malformed[] = {"00", "83", "8301", "8300", "83 80 00", "03 02 00", "81 03 012180", "83 01 00 ff"};
    uint8_t response[300];
    await();
    for (size_t i = 0; i < sizeof malformed / sizeof *malformed; i++) {
        size_t n = unhex(malformed[i], response, sizeof response);
        expect_answer(malformed[i], call_respond(state, STATE_LENGTH, response, n, command, LENT_COMMAND), USAT_RESPONSE);
    }
    memset(response, 0, sizeof response);
    unhex("83 01 00 8d 81", response, sizeof response);
    response[5] = 250;
    expect_answer("256 bytes", call_respond(state, STATE_LENGTH, response, 256, command, LENT_COMMAND), USAT_RESPONSE);
    response[5] = 249;
    expect_answer("255 bytes", call_respond(state, STATE_LENGTH, response, 255, command, LENT_COMMAND), USAT_DONE);
    expect_answer("it waits no more", call_respond(state, STATE_LENGTH, response, 255, command, LENT_COMMAND), USAT_CALL);
}

/* 19 before 18 in an environment write, and both sides of 255 bytes. */
static void try_environment(void) {
    uint8_t bytes[256] = {0};
    call_create(state, STATE_LENGTH);
    expect_answer("19 before 18", call_environment(state, STATE_LENGTH, 0x40, bytes, 256), USAT_SECURITY);
    expect_answer("'05'", call_environment(state, STATE_LENGTH, 5, bytes, 1), USAT_SECURITY);
    expect_answer("'3F'", call_environment(state, STATE_LENGTH, 0x3F, bytes, 1), USAT_DONE);
    expect_answer("256 bytes", call_environment(state, STATE_LENGTH, 2, bytes, 256), USAT_MEMORY);
    expect_answer("255 bytes", call_environment(state, STATE_LENGTH, 2, bytes, 255), USAT_DONE);
}

/* A null pointer of length 0 is an empty page, response, value or Service ID. */
static void try_null(void) {
    call_create(state, STATE_LENGTH);
    expect_answer("an empty page", call_load(state, STATE_LENGTH, NULL, 0), USAT_PAGE_SIZE);
    expect_answer("an empty value", call_environment(state, STATE_LENGTH, 2, NULL, 0), USAT_DONE);
    expect_answer("an empty ID", call_read(state, STATE_LENGTH, 0x41, NULL, 0, value, LENT_VALUE), USAT_UNDEFINED);
    uint64_t number = call_read(state, STATE_LENGTH, 2, NULL, 0, value, LENT_VALUE);
    expect(number == (uint64_t)USAT_BINARY << 8, "the empty value");
    expect_answer("no state", call_create(NULL, 0), USAT_BUFFER);
    expect_answer("no command buffer", call_step(state, STATE_LENGTH, NULL, 0), USAT_BUFFER);
    expect_answer("no value buffer", call_read(state, STATE_LENGTH, 2, NULL, 0, NULL, 0), USAT_BUFFER);
    await();
    expect_answer("an empty response", call_respond(state, STATE_LENGTH, NULL, 0, command, LENT_COMMAND), USAT_RESPONSE);
    expect(usat_judge(NULL, 0) == USAT_PAGE_SIZE, "an empty page judged");
}

void try_refusals(void) {
    state = lend(STATE_LENGTH);
    command = lend(LENT_COMMAND);
    value = lend(LENT_VALUE);
    memset(command, 0x5A, LENT_COMMAND);
    memset(value, 0x5A, LENT_VALUE);
    try_32();
    try_35();
    try_33();
    try_34();
    try_environment();
    try_null();
    printf("orders of refusals, null pointers: as promised\n");
}
