/* Calls the library: a yes, a no, a malformed text, a buffer that is too small, and several threads at once. */
#include "fcbench.h"
#include "reasons.h"
#include <pthread.h>
#include <stdio.h>
#include <stdlib.h>
#include <string.h>

static const char queue[] =
    "{:process 0, :type :invoke, :f :enqueue, :value 1}\n"
    "{:process 0, :type :ok, :f :enqueue, :value 1}\n"
    "{:process 0, :type :invoke, :f :dequeue}\n"
    "{:process 0, :type :ok, :f :dequeue, :value 1}\n";
static const char yes_lines[] = "yes: 2 operations, 1 objects\nqueue: 1 objects, 2 operations\n";
/* The register contains 2 where 1 is read. */
static const char old_read[] =
    "{:process 0, :type :invoke, :f :write, :value 1}\n"
    "{:process 0, :type :ok, :f :write, :value 1}\n"
    "{:process 0, :type :invoke, :f :write, :value 2}\n"
    "{:process 0, :type :ok, :f :write, :value 2}\n"
    "{:process 0, :type :invoke, :f :read}\n"
    "{:process 0, :type :ok, :f :read, :value 1}\n";

static const uint8_t *bytes(const char *text) { return (const uint8_t *)text; }

static void want(int holds, const char *what) {
    if (!holds) {
        fprintf(stderr, "test_judge: %s\n", what);
        exit(1);
    }
}

/* All lines of a judgement, in a block of their own. */
static char *judged(const char *history, uint32_t *status) {
    size_t needed = 0, capacity;
    *status = fcbench_judge(bytes(history), strlen(history), FCBENCH_STEPS, NULL, 0, &needed);
    char *lines = malloc(needed + 1);
    want(lines != NULL, "out of memory");
    capacity = needed;
    uint32_t again = fcbench_judge(bytes(history), strlen(history), FCBENCH_STEPS, (uint8_t *)lines, capacity, &needed);
    want(again == *status && needed == capacity, "two calls answer the same");
    lines[needed] = 0;
    return lines;
}

static void answers(void) {
    uint32_t status;
    char *lines = judged(queue, &status);
    want(status == FCBENCH_YES && strcmp(lines, yes_lines) == 0, "a queue is judged");
    free(lines);
    lines = judged(old_read, &status);
    want(status == FCBENCH_NO && strncmp(lines, "; object 0: impossible\n", 23) == 0, "a register is refuted");
    /* The last line of a judgement is the reason, as a comment. */
    char *reason = strstr(lines, "; {:object 0, :cuts ");
    want(reason != NULL, "it comes with a reason");
    size_t needed;
    status = fcbench_refute(bytes(old_read), strlen(old_read), bytes(reason + 2), strlen(reason + 2), FCBENCH_STEPS, NULL, 0, &needed);
    want(status == FCBENCH_NO, "the reason is accepted");
    status = fcbench_refute(bytes(queue), strlen(queue), bytes(reason + 2), strlen(reason + 2), FCBENCH_STEPS, NULL, 0, &needed);
    want(status == FCBENCH_UNDECIDED, "it shows nothing of the other history");
    status = fcbench_verify(bytes(old_read), strlen(old_read), bytes(reason + 2), strlen(reason + 2), FCBENCH_STEPS, NULL, 0, &needed);
    want(status == FCBENCH_NO, "it is evidence");
    free(lines);
    lines = judged("", &status);
    want(status == FCBENCH_YES && strcmp(lines, "yes: 0 operations, 0 objects\n") == 0, "a history without a map is a yes");
    free(lines);
    lines = judged("{:process 0", &status);
    want(status == FCBENCH_MALFORMED && strcmp(lines, "malformed history: E2 at byte 11\n") == 0, "a text that ends early");
    free(lines);
}

/* The reasons among the lines, into a block of their own and in place, are refuted again. */
static void reasons(void) {
    uint32_t status;
    size_t needed;
    char *lines = judged(old_read, &status);
    uint8_t *taken = malloc(strlen(lines));
    want(taken != NULL, "out of memory");
    size_t length = fcbench_reasons(bytes(lines), strlen(lines), taken);
    const char *reason = strstr(lines, "; {:object 0, :cuts ") + 2;
    want(length == strlen(reason) && memcmp(taken, reason, length) == 0, "the reason is the last line");
    status = fcbench_refute(bytes(old_read), strlen(old_read), taken, length, FCBENCH_STEPS, NULL, 0, &needed);
    want(status == FCBENCH_NO, "the reasons are accepted");
    want(fcbench_reasons(bytes(lines), strlen(lines), (uint8_t *)lines) == length && memcmp(lines, taken, length) == 0, "the same in place");
    free(taken);
    free(lines);
    static const char two[] = "; object 0: impossible\n; {:object 0}\n; {:object 1}\n{:object 2}\n; {";
    uint8_t out[sizeof two];
    length = fcbench_reasons(bytes(two), strlen(two), out);
    want(length == 24 && memcmp(out, "{:object 0}\n{:object 1}\n", 24) == 0, "two reasons, and one that is cut");
    want(fcbench_reasons(bytes(yes_lines), strlen(yes_lines), out) == 0, "a yes has none");
}

/* The lines into a buffer, as docs/embedding.md does it. */
static void as_the_page_does(const char *text) {
    const uint8_t *history = bytes(text);
    size_t length = strlen(text);
    uint8_t lines[512];
    size_t needed;
    if (fcbench_judge(history, length, FCBENCH_STEPS, lines, sizeof lines, &needed) != FCBENCH_YES)
        fwrite(lines, 1, needed < sizeof lines ? needed : sizeof lines, stderr);
    want(needed == strlen(yes_lines) && memcmp(lines, yes_lines, needed) == 0, "a queue is judged as the page does");
}

static void certificates(void) {
    uint8_t orders[64], lines[64];
    size_t length, needed;
    uint32_t status = fcbench_find(bytes(queue), strlen(queue), orders, sizeof orders, &length);
    want(status == FCBENCH_YES && length == 26 && memcmp(orders, "{:object 0, :order [0 2]}\n", 26) == 0, "certificates are found");
    status = fcbench_check(bytes(queue), strlen(queue), orders, length, lines, sizeof lines, &needed);
    want(status == FCBENCH_YES && needed == strlen(yes_lines), "and accepted");
    status = fcbench_check(bytes(queue), strlen(queue), NULL, 0, lines, sizeof lines, &needed);
    want(status == FCBENCH_NO && needed == 35 && memcmp(lines, "no: C1 object 0 has no certificate\n", 35) == 0, "none are refused");
    want(fcbench_check(NULL, 0, NULL, 0, NULL, 0, &needed) == FCBENCH_YES && needed == 29, "texts of no bytes");
}

static void a_buffer_too_small(void) {
    uint8_t out[16];
    size_t needed = 0;
    memset(out, '-', sizeof out);
    uint32_t status = fcbench_judge(bytes(queue), strlen(queue), FCBENCH_STEPS, out, 10, &needed);
    want(status == FCBENCH_YES && needed == strlen(yes_lines), "the status is right, and how long the lines are");
    want(memcmp(out, "yes: 2 ope------", 16) == 0, "the lines are cut, and nothing is written after the buffer");
}

enum { THREADS = 4, TURNS = 100 };

/* What one thread does: all four functions, on buffers of its own. It gives how many answers are not those of a call alone. */
static void *calls_of_a_thread(void *refuted) {
    size_t wrong = 0, length, needed;
    for (int turn = 0; turn < TURNS; turn++) {
        char lines[512];
        uint8_t *out = (uint8_t *)lines;
        uint32_t status = fcbench_find(bytes(queue), strlen(queue), out, sizeof lines, &length);
        wrong += status != FCBENCH_YES || length != 26 || memcmp(lines, "{:object 0, :order [0 2]}\n", 26) != 0;
        status = fcbench_check(bytes(queue), strlen(queue), out, length, NULL, 0, &needed);
        wrong += status != FCBENCH_YES || needed != strlen(yes_lines);
        status = fcbench_judge(bytes(old_read), strlen(old_read), FCBENCH_STEPS, out, sizeof lines, &needed);
        wrong += status != FCBENCH_NO || needed != strlen(refuted) || memcmp(lines, refuted, needed) != 0;
        length = fcbench_reasons(out, needed, out);
        status = fcbench_refute(bytes(old_read), strlen(old_read), out, length, FCBENCH_STEPS, NULL, 0, &needed);
        wrong += status != FCBENCH_NO;
    }
    return (void *)wrong;
}

static void several_threads_at_once(void) {
    pthread_t threads[THREADS];
    uint32_t status;
    char *refuted = judged(old_read, &status);
    for (int i = 0; i < THREADS; i++)
        want(pthread_create(&threads[i], NULL, calls_of_a_thread, refuted) == 0, "a thread is started");
    for (int i = 0; i < THREADS; i++) {
        void *wrong;
        want(pthread_join(threads[i], &wrong) == 0 && wrong == NULL, "several threads at once get the answers of a call alone");
    }
    free(refuted);
}

int main(void) {
    answers();
    reasons();
    as_the_page_does(queue);
    certificates();
    a_buffer_too_small();
    several_threads_at_once();
    puts("test_judge: passed");
    return 0;
}
