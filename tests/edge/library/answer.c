/* Answers by the library what the program answers: answer check|judge|find|refute|verify FILE [FILE] [CAPACITY]. It allocates nothing
 * itself, so that each allocation is the library's. */
#include "fcbench.h"
#include <fcntl.h>
#include <stdlib.h>
#include <string.h>
#include <unistd.h>

enum { MOST = 1 << 26 };

static uint8_t first[MOST], second[MOST], out[MOST];

static size_t text_of(const char *name, uint8_t *into) {
    size_t length = 0;
    int file = open(name, O_RDONLY);
    if (file < 0) exit(70);
    for (ssize_t n; (n = read(file, into + length, MOST - length)) != 0; length += (size_t)n)
        if (n < 0) exit(70);
    close(file);
    return length;
}

int main(int count, char **words) {
    if (count < 3) return 64;
    const char *command = words[1];
    int takes_two = !strcmp(command, "check") || !strcmp(command, "refute") || !strcmp(command, "verify");
    if (takes_two && count < 4) return 64;
    size_t length = text_of(words[2], first), other = takes_two ? text_of(words[3], second) : 0, needed = 0;
    int more = takes_two ? 4 : 3;
    size_t capacity = count > more ? (size_t)atol(words[more]) : sizeof out;
    uint32_t status = !strcmp(command, "check")    ? fcbench_check(first, length, second, other, out, capacity, &needed)
                      : !strcmp(command, "refute") ? fcbench_refute(first, length, second, other, FCBENCH_STEPS, out, capacity, &needed)
                      : !strcmp(command, "verify") ? fcbench_verify(first, length, second, other, FCBENCH_STEPS, out, capacity, &needed)
                      : !strcmp(command, "find")   ? fcbench_find(first, length, out, capacity, &needed)
                                                   : fcbench_judge(first, length, FCBENCH_STEPS, out, capacity, &needed);
    size_t given = needed < capacity ? needed : capacity;
    /* Nothing is written after the lines. */
    for (size_t i = given; i < given + 4096 && i < sizeof out; i++)
        if (out[i] != 0) return 71;
    for (size_t sent = 0; sent < given;) {
        ssize_t n = write(1, out + sent, given - sent);
        if (n < 0) return 72;
        sent += (size_t)n;
    }
    return (int)status;
}
