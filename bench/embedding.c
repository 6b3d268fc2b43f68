/* Times calls of the library on a history and its certificates: embedding check|judge HISTORY CERTIFICATES ROUNDS CALLS. For each round it
 * prints the seconds of one call: by the clock, in the program's own code, and in the kernel. Where a round is short, the last two are
 * coarse, and their sum is exact. */
#include "fcbench.h"
#include <stdio.h>
#include <stdlib.h>
#include <string.h>
#include <sys/resource.h>
#include <time.h>

static uint8_t lines[4096];

struct text {
    uint8_t *bytes;
    size_t length;
};

struct times {
    double clock, both, kernel;
};

static struct text text_of(const char *name) {
    struct text text = {NULL, 0};
    FILE *file = fopen(name, "rb");
    if (file == NULL || fseek(file, 0, SEEK_END) != 0) exit(70);
    text.length = (size_t)ftell(file);
    rewind(file);
    text.bytes = malloc(text.length + 1);
    if (text.bytes == NULL || fread(text.bytes, 1, text.length, file) != text.length) exit(70);
    fclose(file);
    return text;
}

static double seconds(clockid_t clock) {
    struct timespec at;
    clock_gettime(clock, &at);
    return (double)at.tv_sec + (double)at.tv_nsec / 1e9;
}

static struct times now(void) {
    struct rusage used;
    getrusage(RUSAGE_SELF, &used);
    double kernel = (double)used.ru_stime.tv_sec + (double)used.ru_stime.tv_usec / 1e6;
    return (struct times){seconds(CLOCK_MONOTONIC), seconds(CLOCK_PROCESS_CPUTIME_ID), kernel};
}

static uint32_t call(int is_check, struct text history, struct text orders) {
    size_t needed;
    return is_check ? fcbench_check(history.bytes, history.length, orders.bytes, orders.length, lines, sizeof lines, &needed)
                    : fcbench_judge(history.bytes, history.length, FCBENCH_STEPS, lines, sizeof lines, &needed);
}

int main(int count, char **words) {
    if (count != 6) return 64;
    int is_check = !strcmp(words[1], "check");
    struct text history = text_of(words[2]), orders = is_check ? text_of(words[3]) : (struct text){NULL, 0};
    long rounds = atol(words[4]), calls = atol(words[5]);
    for (long round = 0; round < rounds; round++) {
        struct times begun = now();
        for (long i = 0; i < calls; i++)
            if (call(is_check, history, orders) != FCBENCH_YES) exit(71);
        struct times end = now();
        double n = (double)calls, kernel = end.kernel - begun.kernel;
        printf("%.9f %.9f %.9f\n", (end.clock - begun.clock) / n, (end.both - begun.both - kernel) / n, kernel / n);
    }
    return 0;
}
