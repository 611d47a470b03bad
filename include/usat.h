/* The interpreter of USAT pages (TS 31.113) for C.
 *
 * A card's state lies in a buffer of USAT_STATE_LENGTH bytes that the caller lends to each call. The library keeps nothing
 * between calls, allocates nothing and calls nothing, so any number of cards may be used, from any number of threads, as
 * long as each buffer is lent to one call at a time. docs/C.md has an example and the layout of the state.
 *
 * Every call answers one number of 64 bits:
 *
 *     bits 0 to 7     the answer: 0 done, or a number of the table in docs/C.md
 *     bits 8 to 15    step, run, respond: the outcome; read: the value's type
 *     bits 16 to 31   load: the offset of the first fault; step, run, respond: the command's length; read: the value's length
 *     bits 32 to 39   step: the unit, from 0
 *     bits 40 to 47   step: the tag of the byte code, 0 at a unit's end
 *     bits 32 to 63   run: the count of steps
 *
 * Whatever a call does not use is 0.
 *
 * A pointer of length 0 may be null. Buffers lent to one call do not overlap.
 */
#ifndef USAT_H
#define USAT_H

#include <stddef.h>
#include <stdint.h>

#ifdef __cplusplus
extern "C" {
#endif

/* The length of a state buffer; any other gets 32. */
#define USAT_STATE_LENGTH 56701u

/* The least length of a command buffer and of a value buffer; a shorter one gets 32. */
#define USAT_COMMAND_LENGTH 255u
#define USAT_VALUE_LENGTH 255u

/* The answers. Those up to USAT_BEYOND_BASE are a refused load's, with an offset; from USAT_SYNTAX to USAT_DISALLOWED the
 * page has ended; from USAT_BUFFER on, as with a refused load, all is as it was. */
enum usat_answer {
    USAT_DONE = 0,
    USAT_PAGE_SIZE = 1,
    USAT_PAST_CONTAINER = 2,
    USAT_TOO_DEEP = 3,
    USAT_MISPLACED = 4,
    USAT_ANCHOR = 5,
    USAT_COUNT_OR_NAME = 6,
    USAT_BEYOND_BASE = 7,
    USAT_SYNTAX = 16,
    USAT_UNDEFINED = 17,
    USAT_MEMORY = 18,
    USAT_SECURITY = 19,
    USAT_DISALLOWED = 22,
    USAT_BUFFER = 32,
    USAT_CALL = 33,
    USAT_RESPONSE = 34,
    USAT_STATE = 35
};

/* The outcomes of a step, a run or a response. */
enum usat_outcome {
    USAT_GONE_ON = 0,
    USAT_COMMAND = 1,
    USAT_OTHER_PAGE = 2,
    USAT_ENDED = 3,
    USAT_REFUSED = 4
};

/* The type of a value (6.2). */
enum usat_type {
    USAT_UNKNOWN = 0,
    USAT_UNPACKED = 1,
    USAT_PACKED = 2,
    USAT_BINARY = 3,
    USAT_UCS2 = 4
};

/* The parts of a call's number. */
#define USAT_ANSWER(r) ((unsigned)((r) & 0xFFu))
#define USAT_OUTCOME(r) ((unsigned)((r) >> 8 & 0xFFu))
#define USAT_TYPE(r) USAT_OUTCOME(r)
#define USAT_SIZE(r) ((unsigned)((r) >> 16 & 0xFFFFu))
#define USAT_UNIT(r) ((unsigned)((r) >> 32 & 0xFFu))
#define USAT_TAG(r) ((unsigned)((r) >> 40 & 0xFFu))
#define USAT_COUNT(r) ((uint32_t)((r) >> 32))

/* After the outcome other page wanted: the length of the reference and its bytes, in the state. A later accepted load
 * empties it. Nothing else of the state is for callers to read. */
#define USAT_WANTED_LENGTH(state) ((unsigned)(state)[56631])
#define USAT_WANTED(state) ((state) + 56632)

/* A new card at rest, whatever the buffer held. Answers 0, or 32. */
uint64_t usat_create(uint8_t *state, size_t state_length);

/* The environment variable `number` gets these bytes, with type binary. Refused, in this order: 32; 35; 33 while a page
 * runs; 19 for a number above '3F' or '05'; 18 for more than 255 bytes. */
uint64_t usat_set_environment(uint8_t *state, size_t state_length, uint8_t number, const uint8_t *value, size_t value_length);

/* A page. Where it is accepted it runs from its first unit. Refused: 32; 35; 33 while a page runs; 1 to 7 with the offset
 * of the first fault. */
uint64_t usat_load(uint8_t *state, size_t state_length, const uint8_t *page, size_t page_length);

/* One step: a byte code, or a unit's end. With the outcome USAT_COMMAND the command is at the start of the command buffer,
 * the bytes behind it stay, and a response is awaited; with any other the command buffer stays as it was. Refused, with
 * outcome USAT_REFUSED: 32; 35; 33 while a response is awaited or no page runs; then 16, 19, 17, 22, 18, which end the page.
 * With 32, 35 and 33 no step was taken, and unit and tag are 0. */
uint64_t usat_step(uint8_t *state, size_t state_length, uint8_t *command, size_t command_length);

/* Up to `most` steps, as many as go on. Outcome and command are those of the last one; the count is the steps taken, a
 * refused one too, and 0 with 32, 35 and 33. */
uint64_t usat_run(uint8_t *state, size_t state_length, uint32_t most, uint8_t *command, size_t command_length);

/* The terminal's response to the command that went out. With the outcome USAT_COMMAND the same command goes out again and
 * another response is awaited. Refused, with outcome USAT_REFUSED: 32; 35; 33 while none is awaited; 34 for a response that
 * is malformed or not of 1 to 255 bytes, and the page still waits; then 17 and 18, which end the page. */
uint64_t usat_respond(uint8_t *state, size_t state_length, const uint8_t *response, size_t response_length, uint8_t *command, size_t command_length);

/* The host ends the page. Refused: 32; 35; 33 while no page runs. */
uint64_t usat_end(uint8_t *state, size_t state_length);

/* A variable, and for a permanent one its Service ID; an empty ID stands for none. Answered 0, the first 255 bytes of the
 * value buffer are the value and zeros behind it, and the rest stays. Refused: 32; 35; 17 for a variable that is undefined
 * or protected; nothing is written then. The state is only read. */
uint64_t usat_read(const uint8_t *state, size_t state_length, uint8_t number, const uint8_t *service, size_t service_length, uint8_t *value, size_t value_length);

/* The loader alone: 0 for an accepted page, else the number from 1 to 7 with the offset of the first fault in the bits
 * from 8 on. */
uint64_t usat_judge(const uint8_t *page, size_t page_length);

#ifdef __cplusplus
}
#endif

#endif
