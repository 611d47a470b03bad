/* Random pages, responses, values and states, sound and damaged; the same for the same seed. */
#include "bench.h"

#include <stdio.h>
#include <string.h>

enum { RESPONSE_ROOM = 400, STEPS = 40 };

static uint64_t seed;
static uint8_t *state, *other, *command, *spare, *value, *page, *response;

static uint64_t next(void) {
    seed += 0x9E3779B97F4A7C15u;
    uint64_t z = seed;
    z = (z ^ z >> 30) * 0xBF58476D1CE4E5B9u;
    z = (z ^ z >> 27) * 0x94D049BB133111EBu;
    return z ^ z >> 31;
}

static unsigned below(unsigned limit) {
    return (unsigned)(next() % limit);
}

static bool one_in(unsigned n) {
    return below(n) == 0;
}

/* Bytes that are put one after another, with places for lengths that are known later. */
struct text {
    uint8_t *bytes;
    size_t length;
};

static void add(struct text *text, unsigned byte) {
    if (text->length < PAGE_MOST) {
        text->bytes[text->length++] = (uint8_t)byte;
    }
}

static void add_all(struct text *text, const char *digits) {
    uint8_t bytes[64];
    size_t length = unhex(digits, bytes, sizeof bytes);
    for (size_t i = 0; i < length; i++) {
        add(text, bytes[i]);
    }
}

/* A TLV begins with a length of two bytes, which `close_tlv` puts in. */
static size_t open_tlv(struct text *text, unsigned tag) {
    add(text, tag);
    add_all(text, "82 00 00");
    return text->length;
}

static void close_tlv(struct text *text, size_t start) {
    size_t length = text->length - start;
    if (start >= 2 && start <= PAGE_MOST) {
        text->bytes[start - 2] = (uint8_t)(length / 256);
        text->bytes[start - 1] = (uint8_t)(length % 256);
    }
}

static unsigned variable(void) {
    static const uint8_t numbers[] = {0x80, 0x81, 0x82, 0x83, 0x80, 0x81, 0x41, 0x42, 0x05, 0x02, 0xC0, 0xC5};
    return numbers[below(sizeof numbers)];
}

static unsigned target(void) {
    static const uint8_t numbers[] = {0x80, 0x81, 0x82, 0x83, 0x80, 0x81, 0x80, 0x41, 0x41, 0x42, 0x02, 0xC0};
    return numbers[below(sizeof numbers)];
}

static void add_inline(struct text *text) {
    size_t value_at = open_tlv(text, 0x0E);
    for (unsigned pieces = below(3); pieces > 0; pieces--) {
        if (one_in(3)) {
            add(text, 0xC0);
            add(text, variable());
            continue;
        }
        unsigned length = one_in(20) ? 120 : below(4);
        add(text, length);
        for (unsigned i = 0; i < length; i++) {
            add(text, 'a' + below(2));
        }
    }
    close_tlv(text, value_at);
}

static void add_list(struct text *text) {
    unsigned count = below(3);
    add(text, 0x0D);
    add(text, count);
    for (unsigned i = 0; i < count; i++) {
        add(text, variable());
    }
}

static void add_value(struct text *text) {
    if (one_in(3)) {
        add_list(text);
    } else {
        add_inline(text);
    }
}

static void add_reference(struct text *text) {
    size_t at = open_tlv(text, 0x0C);
    if (one_in(8)) {
        add(text, 'B');
    }
    add(text, '#');
    if (!one_in(6)) {
        add(text, '1' + below(4));
    }
    if (one_in(30)) {
        add(text, 'x');
    }
    close_tlv(text, at);
}

static void add_page_reference(struct text *text) {
    size_t at = open_tlv(text, 0x12);
    add_reference(text);
    close_tlv(text, at);
}

static void add_branch(struct text *text) {
    size_t at = open_tlv(text, 0x44);
    add(text, variable());
    for (unsigned cases = 1 + below(2); cases > 0; cases--) {
        size_t case_at = open_tlv(text, 0x11);
        add_value(text);
        add_page_reference(text);
        close_tlv(text, case_at);
    }
    if (!one_in(3)) {
        add_page_reference(text);
    }
    close_tlv(text, at);
}

static void add_command(struct text *text) {
    size_t at;
    if (one_in(2)) {
        at = open_tlv(text, 0x46);
    } else {
        unsigned attributes = below(8);
        at = open_tlv(text, 0xC6);
        add(text, attributes);
        if (attributes & 1) {
            add(text, target());
        }
        if (attributes & 4) {
            add(text, target());
        }
    }
    add_all(text, one_in(10) ? "220082" : "218002");
    if (one_in(2)) {
        add_all(text, "8d03044869");
    } else {
        size_t indicator = open_tlv(text, 0x00);
        add_all(text, "8d 01 04 c0");
        add(text, variable());
        close_tlv(text, indicator);
    }
    close_tlv(text, at);
}

static void add_set(struct text *text) {
    size_t at = open_tlv(text, 0x40);
    for (unsigned pairs = 1 + below(3); pairs > 0; pairs--) {
        add(text, target());
        add_value(text);
    }
    close_tlv(text, at);
}

static void add_code(struct text *text) {
    switch (below(10)) {
    case 0:
        add_all(text, one_in(2) ? "4500" : "c50101");
        return;
    case 1:
        add_all(text, "4300");
        return;
    case 2:
        add_all(text, "4804");
        add(text, target());
        add_all(text, "0d01");
        add(text, variable());
        return;
    case 3:
    case 4:
        add_branch(text);
        return;
    case 5:
    case 6:
        add_command(text);
        return;
    default:
        add_set(text);
    }
}

static void add_modifier(struct text *text) {
    size_t at = open_tlv(text, 0x08);
    unsigned low = below(0x20);
    add(text, low);
    add(text, low + below(8));
    size_t action = open_tlv(text, 0x09);
    if (one_in(2)) {
        add(text, below(6));
    } else {
        add(text, 0x20);
        add_reference(text);
    }
    close_tlv(text, action);
    close_tlv(text, at);
}

static void add_unit(struct text *text, unsigned number) {
    bool flagged = one_in(4);
    size_t at = open_tlv(text, flagged ? 0x8A : 0x0A);
    if (flagged) {
        add(text, below(2));
    }
    if (!one_in(6)) {
        add_all(text, "0b01");
        add(text, '1' + number);
    }
    if (one_in(4)) {
        add_modifier(text);
    }
    for (unsigned codes = below(5); codes > 0; codes--) {
        add_code(text);
    }
    close_tlv(text, at);
}

/* Part of a page's parameters, in their order. */
static void add_parameters(struct text *text) {
    add_all(text, one_in(4) ? "020142" : "020141");
    if (one_in(4)) {
        add_all(text, one_in(2) ? "0303007077" : "0302ff70");
    }
    if (one_in(4)) {
        add_all(text, "04027077");
    }
    if (one_in(5)) {
        add_all(text, "05028081");
    }
    if (!one_in(3)) {
        add_all(text, one_in(2) ? "0601a1" : "0602a1b2");
    }
    if (one_in(3)) {
        add_all(text, "0705 0161 026262");
    }
    if (one_in(3)) {
        add_modifier(text);
    }
}

static size_t make_page(void) {
    struct text text = {page, 0};
    bool attributes = one_in(2);
    size_t at = open_tlv(&text, attributes ? 0x81 : 0x01);
    if (attributes) {
        add(&text, below(16));
    }
    add_parameters(&text);
    unsigned units = 1 + below(4);
    for (unsigned i = 0; i < units; i++) {
        add_unit(&text, i);
    }
    close_tlv(&text, at);
    return text.length;
}

static size_t make_response(void) {
    struct text text = {response, 0};
    if (one_in(2)) {
        add_all(&text, "81030121808202 8281");
    }
    add_all(&text, "8301");
    add(&text, one_in(2) ? 0 : below(0x40));
    if (one_in(2)) {
        add_all(&text, one_in(2) ? "8d03044f6b" : "900101");
    }
    if (one_in(20)) {
        memset(response + text.length, (int)below(256), RESPONSE_ROOM - text.length);
        return below(RESPONSE_ROOM);
    }
    return text.length;
}

/* A few bytes change, or the text is cut. */
static size_t damage(uint8_t *bytes, size_t length) {
    if (length == 0) {
        return 0;
    }
    for (unsigned changes = 1 + below(3); changes > 0; changes--) {
        bytes[below((unsigned)length)] = (uint8_t)next();
    }
    return one_in(4) ? below((unsigned)length) : length;
}

static void load(void) {
    size_t length = make_page();
    call_load(state, STATE_LENGTH, page, one_in(4) ? damage(page, length) : length);
}

static void respond(void) {
    size_t length = make_response();
    call_respond(state, STATE_LENGTH, response, one_in(6) ? damage(response, length) : length, command, LENT_COMMAND);
}

static void write_environment(void) {
    unsigned number = one_in(3) ? 2 : below(0x48);
    size_t length = one_in(10) ? below(300) : below(4);
    memset(response, 0x21, length);
    call_environment(state, STATE_LENGTH, (uint8_t)number, response, length);
}

static void read(void) {
    static const uint8_t ids[] = {0xA1, 0xB2};
    call_read(state, STATE_LENGTH, one_in(8) ? (uint8_t)next() : (uint8_t)variable(), ids, below(3), value, LENT_VALUE - below(46));
}

/* A run is its steps: the same count, outcome, command and state. */
static void compare_run(void) {
    uint32_t most = below(STEPS), count = 0;
    memcpy(other, state, STATE_LENGTH);
    memcpy(spare, command, LENT_COMMAND);
    uint64_t ran = call_run(state, STATE_LENGTH, most, command, LENT_COMMAND);
    uint64_t stepped = 0;
    while (count < most && (count == 0 || USAT_OUTCOME(stepped) == USAT_GONE_ON)) {
        stepped = call_step(other, STATE_LENGTH, spare, LENT_COMMAND);
        count++;
    }
    if (USAT_ANSWER(ran) >= USAT_BUFFER) {
        expect(most == 0 || USAT_ANSWER(stepped) == USAT_ANSWER(ran), "a run answers %u, a step %u", USAT_ANSWER(ran), USAT_ANSWER(stepped));
        return;
    }
    expect(USAT_COUNT(ran) == count, "a run of %lu steps takes %lu", (unsigned long)USAT_COUNT(ran), (unsigned long)count);
    expect((ran & 0xFFFFFFFFu) == (stepped & 0xFFFFFFFFu), "a run ends otherwise than its last step");
    expect(memcmp(state, other, STATE_LENGTH) == 0, "a run leaves another state than its steps");
    expect(memcmp(command, spare, LENT_COMMAND) == 0, "a run leaves another command than its steps");
}

static void take_steps(void) {
    switch (below(4)) {
    case 0:
        call_step(state, STATE_LENGTH, command, LENT_COMMAND - below(50));
        return;
    case 1:
        compare_run();
        return;
    default:
        call_run(state, STATE_LENGTH, below(STEPS), command, LENT_COMMAND);
    }
}

static void ask_anything(void) {
    switch (below(7)) {
    case 0:
        call_end(state, STATE_LENGTH);
        return;
    case 1:
        write_environment();
        return;
    case 2:
    case 3:
        read();
        return;
    case 4:
        load();
        return;
    case 5:
        respond();
        return;
    default:
        take_steps();
    }
}

/* A host that mostly asks what fits. */
static void ask(void) {
    bool rests = state[AT_LENGTH] == 0 && state[AT_LENGTH + 1] == 0;
    if (one_in(4)) {
        ask_anything();
    } else if (rests) {
        load();
    } else if (state[AT_HAND] != 0) {
        respond();
    } else {
        take_steps();
    }
}

/* What the calls leave of a card is a card. */
static void expect_card(void) {
    uint64_t number = call_read(state, STATE_LENGTH, 5, NULL, 0, value, LENT_VALUE);
    expect(USAT_ANSWER(number) != USAT_STATE, "a card becomes none");
}

/* A state with some bytes changed, or none of it left: a card or not, each promise holds of it. */
static void try_damaged(void) {
    static uint8_t sound[STATE_LENGTH];
    memcpy(sound, state, STATE_LENGTH);
    if (one_in(40)) {
        for (size_t i = 0; i < STATE_LENGTH; i++) {
            state[i] = (uint8_t)next();
        }
    } else {
        for (unsigned changes = 1 + below(3); changes > 0; changes--) {
            size_t at = one_in(2) ? below(STATE_LENGTH) : AT_HISTORY + below(STATE_LENGTH - AT_HISTORY);
            state[one_in(4) ? below(64) : at] = (uint8_t)(one_in(2) ? below(3) : next());
        }
    }
    for (unsigned calls = 1 + below(6); calls > 0; calls--) {
        ask();
    }
    memcpy(state, sound, STATE_LENGTH);
}

void try_random(uint64_t from, uint64_t calls) {
    seed = from;
    state = lend(STATE_LENGTH);
    other = lend(STATE_LENGTH);
    command = lend(LENT_COMMAND);
    spare = lend(LENT_COMMAND);
    value = lend(LENT_VALUE);
    page = lend(PAGE_MOST);
    response = lend(RESPONSE_ROOM);
    call_create(state, STATE_LENGTH);
    uint64_t start = calls_made();
    while (calls_made() - start < calls) {
        if (one_in(2000)) {
            call_create(state, STATE_LENGTH);
        }
        ask();
        if (one_in(8)) {
            expect_card();
        }
        if (one_in(8)) {
            try_damaged();
        }
    }
    printf("%llu random calls from seed %llu: as promised\n", (unsigned long long)(calls_made() - start), (unsigned long long)from);
}
