/* What the parts of the bench share: counted calls, lent buffers between guard pages, and complaints that end the run. */
#ifndef BENCH_H
#define BENCH_H

#include <stdbool.h>
#include <stddef.h>
#include <stdint.h>

#include "usat.h"

enum { STATE_LENGTH = USAT_STATE_LENGTH, PAGE_MOST = 4096, LENT_COMMAND = 300, LENT_VALUE = 300 };

/* Where the parts of a state stand, as docs/C.md has them. */
enum {
    AT_PAGE = 0,
    AT_LENGTH = 4096,
    AT_ENVIRONMENT = 4098,
    AT_TEMPORARY = 20738,
    AT_PERMANENT = 37378,
    AT_HISTORY = 55298,
    AT_GUARD = 56356,
    AT_HAND = 56374,
    AT_WANTED = 56631,
    AT_UNIT = 56697,
    AT_PLACE = 56699,
    SLOT = 260,
    RECORD = 280,
    ENTRY = 66
};

/* Ends the run with a message unless a promise holds. */
void expect(bool holds, const char *format, ...) __attribute__((format(printf, 2, 3)));

/* A buffer whose last byte stands right before a page that nobody may touch. */
uint8_t *lend(size_t length);

/* Each of these makes one call, compares what it leaves with what the header promises, and gives the call's number. */
uint64_t call_create(uint8_t *state, size_t length);
uint64_t call_environment(uint8_t *state, size_t length, uint8_t number, const uint8_t *value, size_t value_length);
uint64_t call_load(uint8_t *state, size_t length, const uint8_t *page, size_t page_length);
uint64_t call_step(uint8_t *state, size_t length, uint8_t *command, size_t command_length);
uint64_t call_run(uint8_t *state, size_t length, uint32_t most, uint8_t *command, size_t command_length);
uint64_t call_respond(uint8_t *state, size_t length, const uint8_t *response, size_t response_length, uint8_t *command, size_t command_length);
uint64_t call_end(uint8_t *state, size_t length);
uint64_t call_read(const uint8_t *state, size_t length, uint8_t number, const uint8_t *service, size_t service_length, uint8_t *value, size_t value_length);
uint64_t calls_made(void);
void print_answers(void);

/* Bytes from hex digits, blanks passed over; answers their count. */
size_t unhex(const char *digits, uint8_t *bytes, size_t room);

/* The parts. */
void play_vectors(const char *input, const char *output);
void try_states(void);
void try_refusals(void);
void try_random(uint64_t seed, uint64_t calls);

#endif
