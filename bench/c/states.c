/* Number 35: one state for each way in which a buffer is no card, and the cards next to them. */
#include "bench.h"

#include <stdio.h>
#include <string.h>

static uint8_t *state, *command, *value;
static uint8_t created[STATE_LENGTH];
static uint8_t page[PAGE_MOST];

/* KeepAll, password "pw", service A1: sets '80' to "x" and '41' to "Oak", branches to unit "2", Exit. */
static const char stores[] =
    "81 37 01 020141 04027077 0601a1"
    "0a 22 0b0131 4005800e020178 4007410e04034f616b 440d80110a0e02017812040c022332"
    "0a 06 0b0132 c50101";
/* A unit with a command and an Exit, and another unit. */
static const char sends[] = "011b 020141 0a0f 0b0131 4608 218002 8d03044869 4500 0a05 0b0132 4500";
/* A command whose general result goes to the number that stands at RESULT_AT, without and with a Service ID. */
static const char unserved[] = "0116 020141 0a11 0b0131 c60a 01 80 218002 8d03044869 4500";
static const char served[] = "0119 020141 0601a1 0a11 0b0131 c60a 01 80 218002 8d03044869 4500";
enum { PLACE = 10, EXIT_PLACE = 20, UNIT_END = 22, SECOND_PLACE = 27, UNSERVED_AT = 13, SERVED_AT = 16, SERVED_PLACE = 13 };

static void load(const char *digits) {
    size_t length = unhex(digits, page, sizeof page);
    uint64_t number = call_load(state, STATE_LENGTH, page, length);
    expect(USAT_ANSWER(number) == 0, "a page to start from: %u at %u", USAT_ANSWER(number), USAT_SIZE(number));
}

/* A card at rest with a value in each area, a history of one entry, and a password. */
static void rest(void) {
    const uint8_t allowed = 0x21;
    call_create(state, STATE_LENGTH);
    call_environment(state, STATE_LENGTH, 2, &allowed, 1);
    load(stores);
    uint64_t number = call_run(state, STATE_LENGTH, 100, command, LENT_COMMAND);
    expect(USAT_OUTCOME(number) == USAT_ENDED && USAT_COUNT(number) == 4, "a card to start from");
}

static void start(const char *digits) {
    call_create(state, STATE_LENGTH);
    load(digits);
}

static void run(void) {
    start(sends);
}

static void await(void) {
    run();
    call_step(state, STATE_LENGTH, command, LENT_COMMAND);
}

static void put(size_t at, unsigned byte) {
    state[at] = (uint8_t)byte;
}

static void put_pair(size_t at, unsigned number) {
    put(at, number / 256);
    put(at + 1, number % 256);
}

static size_t environment(size_t number) { return AT_ENVIRONMENT + SLOT * number; }
static size_t temporary(size_t number) { return AT_TEMPORARY + SLOT * number; }
static size_t permanent(size_t number) { return AT_PERMANENT + RECORD * number; }
static size_t entry(size_t number) { return AT_HISTORY + 2 + ENTRY * number; }

/* A value of some length in a slot: its bytes are ones. */
static void fill_slot(size_t at, unsigned length) {
    put(at, 1);
    put(at + 1, 0);
    put(at + 2, length);
    memset(state + at + 4, 1, length);
}

static void fill_record(size_t at, unsigned number, unsigned length) {
    put(at, 1);
    put(at + 1, number);
    put(at + 2, 1);
    put(at + 4, length);
    put(at + 8, 0xA1);
    memset(state + at + 24, 1, length);
}

static void fill_temporary(unsigned last) {
    rest();
    for (size_t i = 1; i < 9; i++) {
        fill_slot(temporary(i), 255);
    }
    fill_slot(temporary(9), last);
}

static void fill_permanent(unsigned last) {
    rest();
    for (unsigned i = 1; i < 9; i++) {
        fill_record(permanent(i), 0x41 + i, 255);
    }
    fill_record(permanent(9), 0x50, last);
}

/* A byte code at a place waits for a response to a command of one byte. */
static void wait_at(const char *digits, unsigned place) {
    start(digits);
    put_pair(AT_PLACE, place);
    put(AT_HAND, 1);
    put(AT_HAND + 1, 1);
    put(AT_HAND + 2, 0xD0);
}

static void put_entry(const char *digits) {
    uint8_t bytes[66];
    rest();
    size_t length = unhex(digits, bytes, sizeof bytes);
    memset(state + entry(0), 0, ENTRY);
    put(entry(0), (unsigned)length);
    memcpy(state + entry(0) + 1, bytes, length < 65 ? length : 65);
}

static void put_wanted(unsigned length) {
    put(AT_WANTED, length);
    memset(state + AT_WANTED + 1, 'x', length < 65 ? length : 65);
}

/* The same, with another number for the result variable. */
static void wait_for_result(const char *digits, size_t at, unsigned number, unsigned place) {
    wait_at(digits, place);
    put(at, number);
}

#define THIRTY "616161616161616161616161616161616161616161616161616161616161"

static void environment_mark(void) { rest(); put(environment(2), 2); }
static void environment_type(void) { rest(); put(environment(2) + 1, 5); }
static void environment_gap(void) { rest(); put(environment(2) + 3, 1); }
static void environment_behind(void) { rest(); put(environment(2) + 5, 1); }
static void environment_free(void) { rest(); put(environment(1) + 4, 1); }
static void temporary_mark(void) { rest(); put(temporary(0), 0xFF); }
static void temporary_type(void) { rest(); put(temporary(0) + 1, 7); }
static void temporary_behind(void) { rest(); put(temporary(0) + 259, 1); }
static void temporary_free(void) { rest(); put(temporary(63) + 259, 1); }
static void temporary_room(void) { fill_temporary(8); }
static void permanent_mark(void) { rest(); put(permanent(0), 2); }
static void permanent_low(void) { rest(); put(permanent(0) + 1, 0x3F); }
static void permanent_high(void) { rest(); put(permanent(0) + 1, 0x80); }
static void permanent_no_id(void) { rest(); put(permanent(0) + 2, 0); put(permanent(0) + 8, 0); }
static void permanent_long_id(void) { rest(); put(permanent(0) + 2, 17); }
static void permanent_type(void) { rest(); put(permanent(0) + 3, 5); }
static void permanent_gap(void) { rest(); put(permanent(0) + 5, 1); }
static void permanent_behind_id(void) { rest(); put(permanent(0) + 9, 1); }
static void permanent_behind(void) { rest(); put(permanent(0) + 27, 1); }
static void permanent_free(void) { rest(); put(permanent(63) + 279, 1); }
static void permanent_twice(void) { rest(); fill_record(permanent(7), 0x41, 2); }
static void permanent_room(void) { fill_permanent(6); }
static void history_count(void) { rest(); put(AT_HISTORY, 17); }
static void history_pointer(void) { rest(); put(AT_HISTORY + 1, 2); }
static void history_behind(void) { rest(); put(entry(0) + 4, 1); }
static void history_free(void) { rest(); put(entry(15) + 65, 1); }
static void history_no_mark(void) { put_entry("412431"); }
static void history_no_page(void) { put_entry("2331"); }
static void history_no_anchor(void) { put_entry("4123"); }
static void history_empty_entry(void) { put_entry(""); }
static void history_long_page(void) { put_entry(THIRTY "616161 23 31"); }
static void history_long_anchor(void) { put_entry("41 23" THIRTY "616161"); }
static void history_long_entry(void) { put_entry(THIRTY "6161 23" THIRTY "616161"); }
static void guard_long(void) { rest(); put(AT_GUARD + 1, 17); }
static void guard_mark(void) { rest(); put(AT_GUARD, 2); }
static void guard_behind(void) { rest(); put(AT_GUARD + 4, 1); }
static void guard_unmarked(void) { rest(); put(AT_GUARD, 0); }
static void guard_running(void) { run(); put(AT_GUARD, 1); }
static void page_refused(void) { run(); put(AT_PAGE + EXIT_PLACE, 0x7E); }
static void page_long(void) { run(); put_pair(AT_LENGTH, 4097); }
static void page_cut(void) { run(); put_pair(AT_LENGTH, 28); }
static void page_longer(void) { run(); put_pair(AT_LENGTH, 30); }
static void page_behind(void) { run(); put(AT_PAGE + 4095, 1); }
static void unit_past(void) { run(); put_pair(AT_UNIT, 2); }
static void unit_far(void) { run(); put_pair(AT_UNIT, 256); }
static void place_between(void) { run(); put_pair(AT_PLACE, PLACE + 1); }
static void place_before(void) { run(); put_pair(AT_PLACE, PLACE - 3); }
static void place_zero(void) { run(); put_pair(AT_PLACE, 0); }
static void place_of_other(void) { run(); put_pair(AT_PLACE, SECOND_PLACE); }
static void place_past(void) { run(); put_pair(AT_PLACE, UNIT_END + 1); }
static void wait_at_exit(void) { wait_at(sends, EXIT_PLACE); }
static void wait_at_end(void) { wait_at(sends, UNIT_END); }
static void wait_environment(void) { wait_for_result(unserved, UNSERVED_AT, 0x02, PLACE); }
static void wait_string(void) { wait_for_result(served, SERVED_AT, 0xC0, SERVED_PLACE); }
static void wait_unserved(void) { wait_for_result(unserved, UNSERVED_AT, 0x41, PLACE); }
static void hand_empty(void) { await(); put(AT_HAND + 1, 0); memset(state + AT_HAND + 2, 0, 255); }
static void hand_mark(void) { await(); put(AT_HAND, 2); }
static void hand_unmarked(void) { await(); put(AT_HAND, 0); }
static void hand_behind(void) { await(); put(AT_HAND + 256, 1); }
static void wanted_short(void) { rest(); put_wanted(1); }
static void wanted_long(void) { rest(); put_wanted(66); }
static void wanted_behind(void) { rest(); put_wanted(2); put(AT_WANTED + 3, 1); }
static void wanted_running(void) { run(); put_wanted(3); }
static void rest_page(void) { rest(); put(AT_PAGE, 1); }
static void rest_unit(void) { rest(); put_pair(AT_UNIT, 1); }
static void rest_place(void) { rest(); put_pair(AT_PLACE, PLACE); }
static void rest_hand(void) { rest(); put(AT_HAND, 1); put(AT_HAND + 1, 1); put(AT_HAND + 2, 0xD0); }
static void garbage(void) { memset(state, 0xFF, STATE_LENGTH); }

struct directed {
    const char *what;
    void (*make)(void);
};

#define DIRECTED(name) {#name, name}
static const struct directed no_cards[] = {
    DIRECTED(environment_mark), DIRECTED(environment_type), DIRECTED(environment_gap), DIRECTED(environment_behind), DIRECTED(environment_free),
    DIRECTED(temporary_mark), DIRECTED(temporary_type), DIRECTED(temporary_behind), DIRECTED(temporary_free), DIRECTED(temporary_room),
    DIRECTED(permanent_mark), DIRECTED(permanent_low), DIRECTED(permanent_high), DIRECTED(permanent_no_id), DIRECTED(permanent_long_id),
    DIRECTED(permanent_type), DIRECTED(permanent_gap), DIRECTED(permanent_behind_id), DIRECTED(permanent_behind), DIRECTED(permanent_free),
    DIRECTED(permanent_twice), DIRECTED(permanent_room), DIRECTED(history_count), DIRECTED(history_pointer), DIRECTED(history_behind),
    DIRECTED(history_free), DIRECTED(history_no_mark), DIRECTED(history_no_page), DIRECTED(history_no_anchor), DIRECTED(history_empty_entry),
    DIRECTED(history_long_page), DIRECTED(history_long_anchor), DIRECTED(history_long_entry), DIRECTED(guard_long), DIRECTED(guard_mark),
    DIRECTED(guard_behind), DIRECTED(guard_unmarked), DIRECTED(guard_running), DIRECTED(page_refused), DIRECTED(page_long),
    DIRECTED(page_cut), DIRECTED(page_longer), DIRECTED(page_behind), DIRECTED(unit_past), DIRECTED(unit_far),
    DIRECTED(place_between), DIRECTED(place_before), DIRECTED(place_zero), DIRECTED(place_of_other), DIRECTED(place_past),
    DIRECTED(wait_at_exit), DIRECTED(wait_at_end), DIRECTED(wait_environment), DIRECTED(wait_string), DIRECTED(wait_unserved),
    DIRECTED(hand_empty), DIRECTED(hand_mark), DIRECTED(hand_unmarked), DIRECTED(hand_behind), DIRECTED(wanted_short),
    DIRECTED(wanted_long), DIRECTED(wanted_behind), DIRECTED(wanted_running), DIRECTED(rest_page), DIRECTED(rest_unit),
    DIRECTED(rest_place), DIRECTED(rest_hand), DIRECTED(garbage),
};

/* Their neighbours that are cards: the limits themselves. */
static void full_temporary(void) { fill_temporary(7); }
static void full_permanent(void) { fill_permanent(5); }
static void other_id(void) { rest(); fill_record(permanent(7), 0x41, 2); put(permanent(7) + 8, 0xB2); }
static void longer_id(void) { rest(); fill_record(permanent(7), 0x41, 2); put(permanent(7) + 2, 2); }
static void last_pointer(void) { rest(); put(AT_HISTORY + 1, 0); }
static void long_entry(void) { put_entry(THIRTY "6161 23" THIRTY "6161"); }
static void name_with_mark(void) { put_entry("4123 23 31"); }
static void full_guard(void) { rest(); put(AT_GUARD + 1, 16); }
static void at_end(void) { run(); put_pair(AT_PLACE, UNIT_END); }
static void at_exit(void) { run(); put_pair(AT_PLACE, EXIT_PLACE); }
static void in_second(void) { run(); put_pair(AT_UNIT, 1); put_pair(AT_PLACE, SECOND_PLACE); }
static void awaiting(void) { await(); }
static void awaiting_temporary(void) { wait_for_result(unserved, UNSERVED_AT, 0xBF, PLACE); }
static void awaiting_served(void) { wait_for_result(served, SERVED_AT, 0x41, SERVED_PLACE); }
static void other_command(void) { await(); put(AT_HAND + 2, 0); }
static void long_wanted(void) { rest(); put_wanted(65); }

static const struct directed cards[] = {
    DIRECTED(full_temporary), DIRECTED(full_permanent), DIRECTED(other_id), DIRECTED(longer_id), DIRECTED(last_pointer), DIRECTED(long_entry),
    DIRECTED(name_with_mark), DIRECTED(full_guard), DIRECTED(at_end), DIRECTED(at_exit), DIRECTED(in_second), DIRECTED(awaiting),
    DIRECTED(awaiting_temporary), DIRECTED(awaiting_served), DIRECTED(other_command), DIRECTED(long_wanted), DIRECTED(rest), DIRECTED(run),
};

static void expect_35(const char *what, const char *call, uint64_t number) {
    expect(USAT_ANSWER(number) == USAT_STATE, "%s: %s answers %u, not 35", what, call, USAT_ANSWER(number));
}

static void try_no_card(const struct directed *one) {
    const uint8_t response[] = {0x83, 0x01, 0x00};
    size_t length = unhex(sends, page, sizeof page);
    one->make();
    expect_35(one->what, "environment", call_environment(state, STATE_LENGTH, 2, response, 1));
    expect_35(one->what, "load", call_load(state, STATE_LENGTH, page, length));
    expect_35(one->what, "step", call_step(state, STATE_LENGTH, command, LENT_COMMAND));
    expect_35(one->what, "run", call_run(state, STATE_LENGTH, 10, command, LENT_COMMAND));
    expect_35(one->what, "respond", call_respond(state, STATE_LENGTH, response, sizeof response, command, LENT_COMMAND));
    expect_35(one->what, "end", call_end(state, STATE_LENGTH));
    expect_35(one->what, "read", call_read(state, STATE_LENGTH, 2, NULL, 0, value, LENT_VALUE));
    expect(call_create(state, STATE_LENGTH) == 0 && memcmp(state, created, STATE_LENGTH) == 0, "%s: another card is created", one->what);
}

static void try_card(const struct directed *one) {
    one->make();
    uint64_t number = call_read(state, STATE_LENGTH, 2, NULL, 0, value, LENT_VALUE);
    expect(USAT_ANSWER(number) != USAT_STATE, "%s: a card gets 35", one->what);
}

void try_states(void) {
    state = lend(STATE_LENGTH);
    command = lend(LENT_COMMAND);
    value = lend(LENT_VALUE);
    memset(state, 0xFF, STATE_LENGTH);
    call_create(state, STATE_LENGTH);
    memcpy(created, state, STATE_LENGTH);
    for (size_t i = 0; i < sizeof no_cards / sizeof *no_cards; i++) {
        try_no_card(&no_cards[i]);
    }
    for (size_t i = 0; i < sizeof cards / sizeof *cards; i++) {
        try_card(&cards[i]);
    }
    printf("%zu states that are no card, %zu next to them that are: as promised\n", sizeof no_cards / sizeof *no_cards, sizeof cards / sizeof *cards);
}
