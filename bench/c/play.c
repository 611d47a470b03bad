/* The vectors, played over the calls for C: host calls in the line protocol (docs/PROTOCOL.md) and the answers they must get. */
#include "bench.h"

#include <stdio.h>
#include <stdlib.h>
#include <string.h>

enum { LINE = 140000 };

static uint8_t *state, *command, *value;
static uint8_t bytes[65536];
static char answer[2048];

static const char *const outcomes[] = {"on", "command", "page", "ended", "refused"};

static char *put_hex(char *to, const uint8_t *from, size_t length) {
    if (length == 0) {
        return to + sprintf(to, " -");
    }
    to += sprintf(to, " ");
    for (size_t i = 0; i < length; i++) {
        to += sprintf(to, "%02x", from[i]);
    }
    return to;
}

static size_t parse(const char *word) {
    return strcmp(word, "-") == 0 ? 0 : unhex(word, bytes, sizeof bytes);
}

/* The command that went out and the reference of the page wanted. */
static void put_carried(char *to, uint64_t result) {
    bool wanted = USAT_ANSWER(result) == 0 && USAT_OUTCOME(result) == USAT_OTHER_PAGE;
    to = put_hex(to, command, USAT_SIZE(result));
    put_hex(to, USAT_WANTED(state), wanted ? USAT_WANTED_LENGTH(state) : 0);
}

static void play_step(void) {
    uint64_t result = call_step(state, STATE_LENGTH, command, LENT_COMMAND);
    char *to = answer + sprintf(answer, "step %u %s", USAT_ANSWER(result), outcomes[USAT_OUTCOME(result)]);
    if (USAT_ANSWER(result) < USAT_BUFFER) {
        to += sprintf(to, " %u %02x", USAT_UNIT(result), USAT_TAG(result));
    } else {
        to += sprintf(to, " - -");
    }
    put_carried(to, result);
}

static void play_run(const char *most) {
    uint64_t result = call_run(state, STATE_LENGTH, (uint32_t)strtoul(most, NULL, 10), command, LENT_COMMAND);
    char *to = answer + sprintf(answer, "run %u %s %lu", USAT_ANSWER(result), outcomes[USAT_OUTCOME(result)], (unsigned long)USAT_COUNT(result));
    put_carried(to, result);
}

static void play_respond(const char *word) {
    size_t length = parse(word);
    uint64_t result = call_respond(state, STATE_LENGTH, bytes, length, command, LENT_COMMAND);
    char *to = answer + sprintf(answer, "respond %u %s", USAT_ANSWER(result), outcomes[USAT_OUTCOME(result)]);
    put_carried(to, result);
}

static void play_load(const char *word) {
    size_t length = parse(word);
    uint64_t result = call_load(state, STATE_LENGTH, bytes, length);
    unsigned number = USAT_ANSWER(result);
    if (number >= USAT_PAGE_SIZE && number <= USAT_BEYOND_BASE) {
        sprintf(answer, "load %u %u", number, USAT_SIZE(result));
    } else {
        sprintf(answer, "load %u -", number);
    }
}

static void play_read(const char *number, const char *service) {
    size_t length = service == NULL ? 0 : parse(service);
    uint64_t result = call_read(state, STATE_LENGTH, (uint8_t)strtoul(number, NULL, 16), bytes, length, value, LENT_VALUE);
    if (USAT_ANSWER(result) != 0) {
        sprintf(answer, "read %u - -", USAT_ANSWER(result));
        return;
    }
    put_hex(answer + sprintf(answer, "read 0 %u", USAT_TYPE(result)), value, USAT_SIZE(result));
}

static void play_environment(const char *number, const char *word) {
    size_t length = parse(word);
    uint64_t result = call_environment(state, STATE_LENGTH, (uint8_t)strtoul(number, NULL, 16), bytes, length);
    sprintf(answer, "env %u", USAT_ANSWER(result));
}

static void play_line(char *line) {
    char *call = strtok(line, " "), *first = strtok(NULL, " "), *second = strtok(NULL, " ");
    if (strcmp(call, "create") == 0) {
        sprintf(answer, "create %u", USAT_ANSWER(call_create(state, STATE_LENGTH)));
    } else if (strcmp(call, "step") == 0) {
        play_step();
    } else if (strcmp(call, "run") == 0) {
        play_run(first);
    } else if (strcmp(call, "respond") == 0) {
        play_respond(first);
    } else if (strcmp(call, "load") == 0) {
        play_load(first);
    } else if (strcmp(call, "read") == 0) {
        play_read(first, second);
    } else if (strcmp(call, "env") == 0) {
        play_environment(first, second);
    } else if (strcmp(call, "end") == 0) {
        sprintf(answer, "end %u", USAT_ANSWER(call_end(state, STATE_LENGTH)));
    } else {
        expect(false, "no call: %s", call);
    }
}

void play_vectors(const char *input, const char *output) {
    static char line[LINE], wanted[LINE];
    FILE *calls = fopen(input, "r"), *answers = fopen(output, "r");
    expect(calls != NULL && answers != NULL, "no vectors: %s", input);
    state = state == NULL ? lend(STATE_LENGTH) : state;
    command = command == NULL ? lend(LENT_COMMAND) : command;
    value = value == NULL ? lend(LENT_VALUE) : value;
    unsigned long played = 0;
    while (fgets(line, sizeof line, calls) != NULL) {
        line[strcspn(line, "\n")] = 0;
        play_line(line);
        expect(fgets(wanted, sizeof wanted, answers) != NULL, "%s: an answer too many: %s", input, answer);
        wanted[strcspn(wanted, "\n")] = 0;
        played++;
        expect(strcmp(answer, wanted) == 0, "%s, line %lu: %s, not %s", input, played, answer, wanted);
    }
    expect(fgets(wanted, sizeof wanted, answers) == NULL, "%s: an answer too few", input);
    printf("%s: %lu answers equal\n", input, played);
    fclose(calls);
    fclose(answers);
}
