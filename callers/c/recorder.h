/* Records the calls of threads on concurrent objects, as a history for fcbench. Copy this file.
 *
 *     struct recorder recorder;
 *     recorder_open(&recorder, 4); // one journal for each of 4 threads
 *     // in a thread, which uses its own journal:
 *     struct journal *journal = &recorder.journals[thread];
 *     JOURNAL_CALL(journal, 0, "enqueue", fcbench_number(7), (enqueue(queue, 7), fcbench_nil()));
 *     // after the threads have ended:
 *     char *text = recorder_text(&recorder, &length); // NULL where events are missing
 *     recorder_close(&recorder);
 *
 * An atomic counter gives a ticket before each call and one after it. A thread writes into its own
 * journal and takes no lock. The events in the order of their tickets are the history: if it shows one
 * call returning before another was invoked, that is what happened. So a history that is not
 * linearizable shows that the object is not.
 *
 * Calls that never overlap show no fault. So after one ticket of an invocation in eight the thread
 * yields, which leaves room for another thread: `recorder.yields = 0` turns this off.
 * recorder_overlap says how much the calls overlapped.
 *
 * The recorder owns the journals, so use them by their addresses: a copy of one takes its calls with
 * it, and recorder_text gives NULL then.
 *
 * The reply of enqueue, push, insert and write is their argument: if the reply is nil, the argument
 * is written, and recorder_text gives NULL if it is anything else. The reply of cas is its pair if
 * it swapped, else fcbench_false(). That of put and del is what was there before, or nil if nothing
 * was: a store that does not tell it has assoc and dissoc, whose reply is nil. So is that of clear,
 * acquire, release, lock and unlock. That of add, remove, contains, create, put-if-absent and replace is
 * fcbench_truth of what the call says, and that of fetch-add the number before.
 *
 * What a call was may be known only when it has returned, as a put-if-absent that gives the value that it
 * found, which is a get then. Invoke it as put-if-absent, since if it times out, it may have put, and end
 * it with journal_return_as.
 *
 * An empty queue is a reply, not a failure: if the dequeue finds nothing, return fcbench_nil().
 *
 * A call that does not return, such as one that timed out, may have happened or may still happen: its
 * operation ends with :info. A thread that goes on after such a call does so as a new process, as
 * Jepsen's threads do, and says so with journal_give_up. Use journal_fail only if the call definitely
 * did not happen: if a call that timed out is written as failed, a correct queue gets a no.
 *
 * Needs C11 and sched_yield of POSIX. If an allocation fails the program ends: a history with a gap would be worth nothing. */
#ifndef FCBENCH_RECORDER_H
#define FCBENCH_RECORDER_H

#include <inttypes.h>
#include <sched.h>
#include <stdarg.h>
#include <stdatomic.h>
#include <stdio.h>
#include <stdlib.h>
#include <string.h>

/* An argument or a reply: nil, a truth value, a number, or a vector of two or three numbers. */
enum fcbench_shape { FCBENCH_NIL, FCBENCH_FALSE, FCBENCH_TRUE, FCBENCH_NUMBER, FCBENCH_PAIR, FCBENCH_TRIPLE };

struct fcbench_value {
    enum fcbench_shape shape;
    int64_t first, second, third;
};

static inline struct fcbench_value fcbench_nil(void) { return (struct fcbench_value){FCBENCH_NIL, 0, 0, 0}; }
static inline struct fcbench_value fcbench_false(void) { return (struct fcbench_value){FCBENCH_FALSE, 0, 0, 0}; }
static inline struct fcbench_value fcbench_truth(int is_so) { return (struct fcbench_value){is_so ? FCBENCH_TRUE : FCBENCH_FALSE, 0, 0, 0}; }
static inline struct fcbench_value fcbench_number(int64_t n) { return (struct fcbench_value){FCBENCH_NUMBER, n, 0, 0}; }
static inline struct fcbench_value fcbench_pair(int64_t a, int64_t b) { return (struct fcbench_value){FCBENCH_PAIR, a, b, 0}; }
/* The argument of replace: a key, what is expected and what is new. */
static inline struct fcbench_value fcbench_triple(int64_t key, int64_t expected, int64_t value) {
    return (struct fcbench_value){FCBENCH_TRIPLE, key, expected, value};
}

/* How a call ended. One that is pending at the end is written with :info. */
enum recorded_end { RECORDED_PENDING, RECORDED_OK, RECORDED_FAIL };

struct recorded_call {
    uint64_t invoked, ended; /* tickets */
    uint64_t process;
    uint16_t object;
    enum recorded_end end;
    const char *function; /* as "enqueue"; it is not copied */
    struct fcbench_value argument, reply;
};

struct recorder;

/* What one thread did. */
struct journal {
    struct recorder *recorder;
    uint64_t process;
    size_t count, room;
    struct recorded_call *calls;
};

/* A thread yields after one ticket of an invocation in this many. */
enum { RECORDED_CALLS_TO_A_YIELD = 8 };

struct recorder {
    atomic_uint_fast64_t tickets;
    size_t threads;
    int yields; /* whether a thread yields between the ticket of an invocation and the call */
    struct journal *journals;
};

static inline void *recorder_memory(void *old, size_t size) {
    void *memory = realloc(old, size);
    if (memory == NULL) {
        fputs("recorder: out of memory\n", stderr);
        abort();
    }
    return memory;
}

static inline void recorder_open(struct recorder *recorder, size_t threads) {
    atomic_init(&recorder->tickets, 0);
    recorder->threads = threads;
    recorder->yields = 1;
    recorder->journals = recorder_memory(NULL, (threads + 1) * sizeof *recorder->journals);
    for (size_t i = 0; i < threads; i++)
        recorder->journals[i] = (struct journal){recorder, i, 0, 0, NULL};
}

static inline void recorder_close(struct recorder *recorder) {
    for (size_t i = 0; i < recorder->threads; i++)
        free(recorder->journals[i].calls);
    free(recorder->journals);
}

/* Call it if the call may have happened, or may still happen, as after a timeout, and the thread goes on: it does so as another
 * process. */
static inline void journal_give_up(struct journal *journal) {
    journal->process += journal->recorder->threads;
}

/* Whether the last call of this process has not returned. */
static inline int journal_is_pending(const struct journal *journal) {
    const struct recorded_call *last = journal->count == 0 ? NULL : &journal->calls[journal->count - 1];
    return last != NULL && last->end == RECORDED_PENDING && last->process == journal->process;
}

/* A number that looks drawn, for each ticket. */
static inline uint64_t recorder_mixed(uint64_t ticket) {
    return (ticket * UINT64_C(0x9E3779B97F4A7C15)) >> 32;
}

/* Call it just before the call. It gives the number of the call in this journal. If the call before is not ended, it is given up. */
static inline size_t journal_invoke(struct journal *journal, uint16_t object, const char *function, struct fcbench_value argument) {
    if (journal_is_pending(journal))
        journal_give_up(journal);
    if (journal->count == journal->room) {
        journal->room = journal->room == 0 ? 256 : 2 * journal->room;
        journal->calls = recorder_memory(journal->calls, journal->room * sizeof *journal->calls);
    }
    size_t number = journal->count++;
    struct recorded_call *call = &journal->calls[number];
    *call = (struct recorded_call){0, 0, journal->process, object, RECORDED_PENDING, function, argument, fcbench_nil()};
    uint64_t ticket = atomic_fetch_add(&journal->recorder->tickets, 1);
    call->invoked = ticket;
    if (journal->recorder->yields && recorder_mixed(ticket) % RECORDED_CALLS_TO_A_YIELD == 0)
        sched_yield();
    return number;
}

static inline void journal_end(struct journal *journal, size_t call, enum recorded_end end, struct fcbench_value reply) {
    journal->calls[call].ended = atomic_fetch_add(&journal->recorder->tickets, 1);
    journal->calls[call].reply = reply;
    journal->calls[call].end = end;
}

/* Call it just after the call returned. */
static inline void journal_return(struct journal *journal, size_t call, struct fcbench_value reply) {
    journal_end(journal, call, RECORDED_OK, reply);
}

/* Call it only if the call definitely did not happen. A timeout is journal_give_up. */
static inline void journal_fail(struct journal *journal, size_t call) {
    journal_end(journal, call, RECORDED_FAIL, fcbench_nil());
}

/* Like journal_return, if it is known only now what the call was: its invocation is written with this function and argument. */
static inline void journal_return_as(struct journal *journal, size_t call, const char *function, struct fcbench_value argument,
                                     struct fcbench_value reply) {
    journal_end(journal, call, RECORDED_OK, reply);
    journal->calls[call].function = function;
    journal->calls[call].argument = argument;
}

/* Makes a call on an object, and records it: `reply` is an expression that makes the call and has its reply. */
#define JOURNAL_CALL(journal, object, function, argument, reply)                                       \
    do {                                                                                               \
        size_t journal_call_ = journal_invoke((journal), (object), (function), (argument));            \
        struct fcbench_value journal_reply_ = (reply);                                                 \
        journal_return((journal), journal_call_, journal_reply_);                                      \
    } while (0)

/* Makes a call that may fail, and records it: `is_done` is an expression that makes the call and is 0 only if it definitely did not
 * happen. Otherwise `reply` is looked at afterwards. */
#define JOURNAL_TRY_CALL(journal, object, function, argument, is_done, reply)                          \
    do {                                                                                               \
        size_t journal_call_ = journal_invoke((journal), (object), (function), (argument));            \
        if (is_done)                                                                                   \
            journal_return((journal), journal_call_, (reply));                                         \
        else                                                                                           \
            journal_fail((journal), journal_call_);                                                    \
    } while (0)

/* ---- the text */

struct recorder_text {
    char *bytes;
    size_t length, room;
};

static inline void recorder_print(struct recorder_text *text, const char *format, ...) {
    va_list words;
    if (text->room - text->length < 200) {
        text->room = 2 * text->room + 4096;
        text->bytes = recorder_memory(text->bytes, text->room);
    }
    va_start(words, format);
    text->length += (size_t)vsnprintf(text->bytes + text->length, 200, format, words);
    va_end(words);
}

static inline void recorder_map(struct recorder_text *text, const struct recorded_call *call, const char *type, struct fcbench_value value) {
    recorder_print(text, "{:process %" PRIu64 ", :type :%s, :f :%.64s, :value ", call->process, type, call->function);
    switch (value.shape) {
    case FCBENCH_NIL: recorder_print(text, "nil"); break;
    case FCBENCH_FALSE: recorder_print(text, "false"); break;
    case FCBENCH_TRUE: recorder_print(text, "true"); break;
    case FCBENCH_NUMBER: recorder_print(text, "%" PRId64, value.first); break;
    case FCBENCH_PAIR: recorder_print(text, "[%" PRId64 " %" PRId64 "]", value.first, value.second); break;
    case FCBENCH_TRIPLE:
        recorder_print(text, "[%" PRId64 " %" PRId64 " %" PRId64 "]", value.first, value.second, value.third);
        break;
    }
    recorder_print(text, ", :object %u}\n", (unsigned)call->object);
}

struct recorder_event {
    const struct recorded_call *call;
    int is_end;
};

/* The events, each at the place of its ticket; in `*missing` how many tickets have none. */
static inline struct recorder_event *recorder_events(struct recorder *recorder, uint64_t tickets, size_t *missing) {
    struct recorder_event *events = recorder_memory(NULL, (tickets + 1) * sizeof *events);
    memset(events, 0, (tickets + 1) * sizeof *events);
    for (size_t i = 0; i < recorder->threads; i++) {
        for (size_t j = 0; j < recorder->journals[i].count; j++) {
            const struct recorded_call *call = &recorder->journals[i].calls[j];
            events[call->invoked] = (struct recorder_event){call, 0};
            if (call->end != RECORDED_PENDING)
                events[call->ended] = (struct recorder_event){call, 1};
        }
    }
    *missing = 0;
    for (uint64_t ticket = 0; ticket < tickets; ticket++)
        *missing += events[ticket].call == NULL;
    return events;
}

/* Whether the reply of a function is its argument. */
static inline int recorded_is_put(const char *function) {
    return strcmp(function, "enqueue") == 0 || strcmp(function, "push") == 0 || strcmp(function, "insert") == 0
        || strcmp(function, "write") == 0;
}

/* Whether the reply of a function is a truth value. */
static inline int recorded_is_question(const char *function) {
    static const char *const questions[] = {"add", "remove", "contains", "create", "put-if-absent", "replace"};
    for (size_t at = 0; at < sizeof questions / sizeof *questions; at++) {
        if (strcmp(function, questions[at]) == 0)
            return 1;
    }
    return 0;
}

/* The reply as it is written: nil of a function that puts a value in is its argument. */
static inline struct fcbench_value recorded_reply(const struct recorded_call *call) {
    return call->end == RECORDED_OK && call->reply.shape == FCBENCH_NIL && recorded_is_put(call->function) ? call->argument : call->reply;
}

static inline int recorded_is_same(struct fcbench_value one, struct fcbench_value other) {
    return one.shape == other.shape && one.first == other.first && one.second == other.second && one.third == other.third;
}

/* Whether each reply that is to be the argument of its call is, and each that is to be a truth value. Of one that is not, it says so on
 * standard error. */
static inline int recorder_has_replies(const struct recorder_event *events, uint64_t tickets) {
    for (uint64_t ticket = 0; ticket < tickets; ticket++) {
        const struct recorded_call *call = events[ticket].call;
        int is_truth = call->reply.shape == FCBENCH_TRUE || call->reply.shape == FCBENCH_FALSE;
        if (call->end == RECORDED_OK && recorded_is_question(call->function) && !is_truth) {
            fprintf(stderr, "recorder: a reply of %s is neither true nor false\n", call->function);
            return 0;
        }
        if (call->end == RECORDED_OK && recorded_is_put(call->function) && !recorded_is_same(recorded_reply(call), call->argument)) {
            fprintf(stderr, "recorder: a reply of %s is not its argument: let it be nil\n", call->function);
            return 0;
        }
    }
    return 1;
}

/* The ticket by which a call was over: a call that did not return, when its thread went on, or else never. */
static inline uint64_t recorded_end(const struct journal *journal, size_t call, uint64_t tickets) {
    if (journal->calls[call].end != RECORDED_PENDING)
        return journal->calls[call].ended;
    return call + 1 < journal->count ? journal->calls[call + 1].invoked : tickets;
}

/* How much the calls overlapped: the share that overlapped another one, from 0 to 1, and in `*at_once` how many were outstanding at once
 * at most. If the share is small, the history could hardly have failed. */
static inline double recorder_overlap(const struct recorder *recorder, size_t *at_once) {
    uint64_t tickets = atomic_load(&recorder->tickets);
    size_t calls = 0, overlapping = 0, *begun = recorder_memory(NULL, 2 * (tickets + 1) * sizeof *begun), *over = begun + tickets + 1;
    memset(begun, 0, 2 * (tickets + 1) * sizeof *begun);
    for (size_t i = 0; i < recorder->threads; i++) {
        const struct journal *journal = &recorder->journals[i];
        for (size_t j = 0; j < journal->count; j++) {
            begun[journal->calls[j].invoked]++;
            over[recorded_end(journal, j, tickets)]++;
        }
    }
    *at_once = 0;
    /* how many were begun, and how many were over, up to each ticket */
    for (uint64_t ticket = 0; ticket < tickets; ticket++) {
        *at_once = begun[ticket] - over[ticket] > *at_once ? begun[ticket] - over[ticket] : *at_once;
        begun[ticket + 1] += begun[ticket];
        over[ticket + 1] += over[ticket];
    }
    for (size_t i = 0; i < recorder->threads; i++) {
        const struct journal *journal = &recorder->journals[i];
        for (size_t j = 0; j < journal->count; j++)
            overlapping += begun[recorded_end(journal, j, tickets) - 1] - over[journal->calls[j].invoked] > 1;
        calls += journal->count;
    }
    free(begun);
    return calls == 0 ? 0.0 : (double)overlapping / (double)calls;
}

/* The history, after all threads have ended: each event at the place of its ticket, and a zero byte after the text. The
 * caller frees it. If events are missing, since a journal was copied, the text is NULL and `*length` is how many: without them a
 * correct object could get a no. If a reply is to be the argument of its call and is not, the text is NULL and `*length` is 0. */
static inline char *recorder_text(struct recorder *recorder, size_t *length) {
    uint64_t tickets = atomic_load(&recorder->tickets);
    struct recorder_event *events = recorder_events(recorder, tickets, length);
    struct recorder_text text = {NULL, 0, 0};
    if (*length != 0 || !recorder_has_replies(events, tickets)) {
        free(events);
        return NULL;
    }
    recorder_print(&text, "%s", "");
    for (uint64_t ticket = 0; ticket < tickets; ticket++) {
        const struct recorded_call *call = events[ticket].call;
        if (!events[ticket].is_end)
            recorder_map(&text, call, "invoke", call->argument);
        else
            recorder_map(&text, call, call->end == RECORDED_OK ? "ok" : "fail", recorded_reply(call));
    }
    for (size_t i = 0; i < recorder->threads; i++)
        for (size_t j = 0; j < recorder->journals[i].count; j++)
            if (recorder->journals[i].calls[j].end == RECORDED_PENDING)
                recorder_map(&text, &recorder->journals[i].calls[j], "info", recorder->journals[i].calls[j].argument);
    free(events);
    *length = text.length;
    return text.bytes;
}

#endif
