/* `bench VECTORS SEED CALLS`: the calls for C on the vectors, on directed states, in each order of refusals, and at random. */
#include "bench.h"

#include <stdio.h>
#include <stdlib.h>

static const char *const vectors[] = {"cases", "limits", "history", "commands", "keep", "handler", "bounds", "loads", "mixed"};

int main(int count, char **words) {
    if (count != 4) {
        fprintf(stderr, "usage: bench VECTORS SEED CALLS\n");
        return 2;
    }
    for (size_t i = 0; i < sizeof vectors / sizeof *vectors; i++) {
        char input[512], output[512];
        snprintf(input, sizeof input, "%s/%s.in", words[1], vectors[i]);
        snprintf(output, sizeof output, "%s/%s.out", words[1], vectors[i]);
        play_vectors(input, output);
    }
    try_states();
    try_refusals();
    try_random(strtoull(words[2], NULL, 10), strtoull(words[3], NULL, 10));
    print_answers();
    printf("%llu calls, every one as the header promises\n", (unsigned long long)calls_made());
    return 0;
}
