/* Drives a right queue and one with a race by 4 threads, records them, and judges the histories.
 *
 *     test_recorder [RUNS] */
#include "fcbench.h"
#include "recorder.h"
#include <pthread.h>
#include <sched.h>
#include <stdbool.h>
#include <time.h>

/* A thread waits no longer for others than PATIENCE, in seconds: only where one of them has died. */
enum { THREADS = 4, CALLS = 50, MOST_OPERATIONS = 5, PATIENCE = 60 };

/* Of the calls of a right queue more overlap another one: all but some of the thread that ends last. */
static const double LEAST_OVERLAP = 0.5;

static void want(bool holds, const char *what, const char *lines) {
    if (!holds) {
        fprintf(stderr, "test_recorder: %s\n%s", what, lines);
        exit(1);
    }
}

/* ---- the queue: its dequeue reads the index of the head and then moves it */

struct queue {
    bool has_race;
    int64_t values[THREADS * CALLS];
    atomic_size_t head, tail, waiting, working;
    time_t begun;
    pthread_mutex_t enqueuing, dequeuing;
};

static time_t seconds(void) {
    struct timespec now;
    clock_gettime(CLOCK_MONOTONIC, &now);
    return now.tv_sec;
}

/* Waits until another thread is here too, or no other one is at work. While a thread waits, the others need not, so they go
 * on and end. */
static void wait_for_another(struct queue *queue) {
    queue->waiting++;
    while (queue->waiting < 2 && queue->working > 1 && seconds() - queue->begun < PATIENCE)
        sched_yield();
    queue->waiting--;
}

/* In a right queue each call waits at first, so that calls overlap on each machine. */
static void enqueue(struct queue *queue, int64_t value) {
    if (!queue->has_race)
        wait_for_another(queue);
    pthread_mutex_lock(&queue->enqueuing);
    queue->values[queue->tail] = value;
    queue->tail++;
    pthread_mutex_unlock(&queue->enqueuing);
}

/* The race: while a thread is between the two, another one may come in and take the same value. A thread waits for one, so
 * each run has the fault: the first two that come in take the same. */
static bool take(struct queue *queue, int64_t *value) {
    size_t head = queue->head;
    if (head == queue->tail)
        return false;
    if (queue->has_race)
        wait_for_another(queue);
    queue->head = head + 1;
    *value = queue->values[head];
    return true;
}

static bool dequeue(struct queue *queue, int64_t *value) {
    if (queue->has_race)
        return take(queue, value);
    wait_for_another(queue);
    pthread_mutex_lock(&queue->dequeuing);
    bool is_some = take(queue, value);
    pthread_mutex_unlock(&queue->dequeuing);
    return is_some;
}

/* ---- the clients */

struct client {
    struct queue *queue;
    struct journal *journal;
};

static void *work(void *own) {
    struct client *client = own;
    int64_t first = (int64_t)client->journal->process * CALLS;
    for (int i = 0; i < CALLS; i++) {
        int64_t value = first + i;
        if (i % 2 == 0)
            JOURNAL_CALL(client->journal, 0, "enqueue", fcbench_number(value), (enqueue(client->queue, value), fcbench_nil()));
        else
            JOURNAL_CALL(client->journal, 0, "dequeue", fcbench_nil(), dequeue(client->queue, &value) ? fcbench_number(value) : fcbench_nil());
    }
    client->queue->working--;
    return NULL;
}

static struct queue *queue_with(bool has_race, size_t working) {
    static struct queue queue;
    queue.has_race = has_race;
    queue.head = queue.tail = queue.waiting = 0;
    queue.working = working;
    queue.begun = seconds();
    pthread_mutex_init(&queue.enqueuing, NULL);
    pthread_mutex_init(&queue.dequeuing, NULL);
    return &queue;
}

static void record(bool has_race, struct recorder *recorder) {
    struct queue *queue = queue_with(has_race, THREADS);
    pthread_t threads[THREADS];
    struct client clients[THREADS];
    recorder_open(recorder, THREADS);
    for (int i = 0; i < THREADS; i++) {
        clients[i] = (struct client){queue, &recorder->journals[i]};
        want(pthread_create(&threads[i], NULL, work, &clients[i]) == 0, "a thread is started", "");
    }
    for (int i = 0; i < THREADS; i++)
        pthread_join(threads[i], NULL);
}

/* ---- the judgement */

static size_t lines_that_begin(const char *lines, const char *with) {
    size_t count = 0;
    const char *line = lines;
    while (line != NULL) {
        count += strncmp(line, with, strlen(with)) == 0;
        line = strchr(line, '\n');
        line = line == NULL ? NULL : line + 1;
    }
    return count;
}

static void judge_run(bool has_race) {
    struct recorder recorder;
    char lines[2048];
    size_t length, needed, at_once;
    record(has_race, &recorder);
    double share = recorder_overlap(&recorder, &at_once);
    want(0 < at_once && at_once <= THREADS, "at most one call of each thread is outstanding", "");
    char *text = recorder_text(&recorder, &length);
    want(text != NULL, "no event is missing", "");
    recorder_close(&recorder);
    uint32_t status = fcbench_judge((const uint8_t *)text, length, FCBENCH_STEPS, (uint8_t *)lines, sizeof lines - 1, &needed);
    lines[needed < sizeof lines ? needed : sizeof lines - 1] = 0;
    free(text);
    if (!has_race) {
        want(status == FCBENCH_YES, "the right queue is linearizable", lines);
        want(share > LEAST_OVERLAP, "its calls overlap", "");
        return;
    }
    size_t operations = lines_that_begin(lines, "; event");
    want(status == FCBENCH_NO, "the wrong queue is refuted", lines);
    want(0 < operations && operations <= MOST_OPERATIONS, "by a reason of few operations", lines);
}

/* The text of a recorder is as wanted, and a yes. It closes the recorder. */
static void want_text(struct recorder *recorder, const char *wanted, const char *what) {
    size_t length, needed;
    char *text = recorder_text(recorder, &length);
    want(text != NULL && length == strlen(wanted) && memcmp(text, wanted, length) == 0, what, text);
    want(fcbench_judge((const uint8_t *)text, length, FCBENCH_STEPS, NULL, 0, &needed) == FCBENCH_YES, what, text);
    free(text);
    recorder_close(recorder);
}

/* A call that did not return ends with :info, and its thread goes on as a new process. */
static void pending_calls(void) {
    struct recorder recorder;
    size_t length;
    recorder_open(&recorder, 2);
    journal_invoke(&recorder.journals[1], 3, "enqueue", fcbench_number(7));
    journal_give_up(&recorder.journals[1]);
    size_t call = journal_invoke(&recorder.journals[1], 3, "dequeue", fcbench_nil());
    journal_fail(&recorder.journals[1], call);
    journal_invoke(&recorder.journals[1], 3, "enqueue", fcbench_number(8));
    call = journal_invoke(&recorder.journals[1], 3, "dequeue", fcbench_nil());
    journal_return(&recorder.journals[1], call, fcbench_number(8));
    char *text = recorder_text(&recorder, &length);
    want(length == strlen(text), "a zero byte is after the text", "");
    static const char wanted[] = "{:process 1, :type :invoke, :f :enqueue, :value 7, :object 3}\n"
                                 "{:process 3, :type :invoke, :f :dequeue, :value nil, :object 3}\n"
                                 "{:process 3, :type :fail, :f :dequeue, :value nil, :object 3}\n"
                                 "{:process 3, :type :invoke, :f :enqueue, :value 8, :object 3}\n"
                                 "{:process 5, :type :invoke, :f :dequeue, :value nil, :object 3}\n"
                                 "{:process 5, :type :ok, :f :dequeue, :value 8, :object 3}\n"
                                 "{:process 1, :type :info, :f :enqueue, :value 7, :object 3}\n"
                                 "{:process 3, :type :info, :f :enqueue, :value 8, :object 3}\n";
    free(text);
    want_text(&recorder, wanted, "a call that did not return is written with :info");
}

static void the_example_at_the_head(void) {
    struct queue *queue = queue_with(false, 1);
    size_t thread = 0, length;
    struct recorder recorder;
    recorder_open(&recorder, 4); // one journal for each of 4 threads
    struct journal *journal = &recorder.journals[thread];
    JOURNAL_CALL(journal, 0, "enqueue", fcbench_number(7), (enqueue(queue, 7), fcbench_nil()));
    char *text = recorder_text(&recorder, &length); // NULL where events are missing
    recorder_close(&recorder);
    static const char wanted[] = "{:process 0, :type :invoke, :f :enqueue, :value 7, :object 0}\n"
                                 "{:process 0, :type :ok, :f :enqueue, :value 7, :object 0}\n";
    want(text != NULL && length == strlen(wanted) && memcmp(text, wanted, length) == 0, "the example at the head of recorder.h", text);
    free(text);
}

/* Without the calls of the copy the history says that 7 is dequeued and was never enqueued. */
static void a_journal_that_is_lost(void) {
    struct recorder recorder;
    size_t length;
    recorder_open(&recorder, 2);
    struct journal copy = recorder.journals[0];
    journal_return(&copy, journal_invoke(&copy, 0, "enqueue", fcbench_number(7)), fcbench_nil());
    journal_invoke(&copy, 0, "enqueue", fcbench_number(8));
    struct journal *kept = &recorder.journals[1];
    journal_return(kept, journal_invoke(kept, 0, "dequeue", fcbench_nil()), fcbench_number(7));
    want(recorder_text(&recorder, &length) == NULL && length == 3, "3 events are missing: a journal is missing", "");
    free(copy.calls);
    recorder_close(&recorder);
}

/* A reply that is not the argument, as a length, is refused. */
static void a_reply_that_is_not_the_argument(void) {
    struct recorder recorder;
    size_t length;
    recorder_open(&recorder, 1);
    struct journal *journal = &recorder.journals[0];
    journal_return(journal, journal_invoke(journal, 0, "enqueue", fcbench_number(7)), fcbench_nil());
    journal_return(journal, journal_invoke(journal, 0, "enqueue", fcbench_number(8)), fcbench_number(2));
    want(recorder_text(&recorder, &length) == NULL && length == 0, "a reply that is not the argument", "");
    recorder_close(&recorder);
}

/* The reply of a function that puts a value in is its argument, also where the call gives nothing. */
static void replies_of_calls_that_give_nothing(void) {
    static const char *const functions[] = {"enqueue", "push", "insert", "write"};
    struct recorder recorder;
    int calls = 0;
    char wanted[2048] = "";
    recorder_open(&recorder, 1);
    for (uint16_t object = 0; object < 4; object++) {
        JOURNAL_CALL(&recorder.journals[0], object, functions[object], fcbench_number(7), (calls++, fcbench_nil()));
        for (int end = 0; end < 2; end++) {
            static const char map[] = "{:process 0, :type :%s, :f :%s, :value 7, :object %d}\n";
            snprintf(wanted + strlen(wanted), 100, map, end ? "ok" : "invoke", functions[object], object);
        }
    }
    JOURNAL_CALL(&recorder.journals[0], 4, "acquire", fcbench_nil(), (calls++, fcbench_nil()));
    strcat(wanted, "{:process 0, :type :invoke, :f :acquire, :value nil, :object 4}\n"
                   "{:process 0, :type :ok, :f :acquire, :value nil, :object 4}\n");
    want(calls == 5, "each call is made once", "");
    want_text(&recorder, wanted, "calls that give nothing");
}

static void calls_that_may_fail(void) {
    struct recorder recorder;
    int calls = 0;
    recorder_open(&recorder, 1);
    struct journal *journal = &recorder.journals[0];
    JOURNAL_TRY_CALL(journal, 0, "enqueue", fcbench_number(7), calls++ > 0, fcbench_nil());
    JOURNAL_TRY_CALL(journal, 0, "enqueue", fcbench_number(7), calls++ > 0, fcbench_nil());
    JOURNAL_TRY_CALL(journal, 0, "dequeue", fcbench_nil(), calls++ > 0, fcbench_number(7));
    want(calls == 3, "each call is made once", "");
    static const char wanted[] = "{:process 0, :type :invoke, :f :enqueue, :value 7, :object 0}\n"
                                 "{:process 0, :type :fail, :f :enqueue, :value nil, :object 0}\n"
                                 "{:process 0, :type :invoke, :f :enqueue, :value 7, :object 0}\n"
                                 "{:process 0, :type :ok, :f :enqueue, :value 7, :object 0}\n"
                                 "{:process 0, :type :invoke, :f :dequeue, :value nil, :object 0}\n"
                                 "{:process 0, :type :ok, :f :dequeue, :value 7, :object 0}\n";
    want_text(&recorder, wanted, "calls that may fail");
}

/* Put-if-absent twice on one key, and a fetch-and-add. */
static void calls_that_are_known_when_they_returned(void) {
    struct recorder recorder;
    recorder_open(&recorder, 1);
    recorder.yields = 0;
    struct journal *journal = &recorder.journals[0];
    journal_return_as(journal, journal_invoke(journal, 0, "put", fcbench_pair(1, 5)), "put", fcbench_pair(1, 5), fcbench_nil());
    journal_return_as(journal, journal_invoke(journal, 0, "put", fcbench_pair(1, 6)), "get", fcbench_number(1), fcbench_number(5));
    JOURNAL_CALL(journal, 1, "write", fcbench_number(3), fcbench_nil());
    journal_return_as(journal, journal_invoke(journal, 1, "cas", fcbench_pair(0, 1)), "cas", fcbench_pair(3, 4), fcbench_pair(3, 4));
    static const char wanted[] = "{:process 0, :type :invoke, :f :put, :value [1 5], :object 0}\n"
                                 "{:process 0, :type :ok, :f :put, :value nil, :object 0}\n"
                                 "{:process 0, :type :invoke, :f :get, :value 1, :object 0}\n"
                                 "{:process 0, :type :ok, :f :get, :value 5, :object 0}\n"
                                 "{:process 0, :type :invoke, :f :write, :value 3, :object 1}\n"
                                 "{:process 0, :type :ok, :f :write, :value 3, :object 1}\n"
                                 "{:process 0, :type :invoke, :f :cas, :value [3 4], :object 1}\n"
                                 "{:process 0, :type :ok, :f :cas, :value [3 4], :object 1}\n";
    want_text(&recorder, wanted, "calls that are known when they returned");
}

/* A set, a counter, a lock, and a map that does not tell what was there. */
static void sets_counters_and_locks(void) {
    struct recorder recorder;
    recorder_open(&recorder, 1);
    recorder.yields = 0;
    struct journal *journal = &recorder.journals[0];
    JOURNAL_CALL(journal, 0, "add", fcbench_number(7), fcbench_truth(1));
    JOURNAL_CALL(journal, 0, "add", fcbench_number(7), fcbench_truth(0));
    JOURNAL_CALL(journal, 1, "fetch-add", fcbench_number(2), fcbench_number(0));
    JOURNAL_CALL(journal, 2, "lock", fcbench_number(1), fcbench_nil());
    JOURNAL_CALL(journal, 3, "assoc", fcbench_pair(1, 10), fcbench_nil());
    JOURNAL_CALL(journal, 3, "replace", fcbench_triple(1, 10, 11), fcbench_truth(1));
    static const char wanted[] = "{:process 0, :type :invoke, :f :add, :value 7, :object 0}\n"
                                 "{:process 0, :type :ok, :f :add, :value true, :object 0}\n"
                                 "{:process 0, :type :invoke, :f :add, :value 7, :object 0}\n"
                                 "{:process 0, :type :ok, :f :add, :value false, :object 0}\n"
                                 "{:process 0, :type :invoke, :f :fetch-add, :value 2, :object 1}\n"
                                 "{:process 0, :type :ok, :f :fetch-add, :value 0, :object 1}\n"
                                 "{:process 0, :type :invoke, :f :lock, :value 1, :object 2}\n"
                                 "{:process 0, :type :ok, :f :lock, :value nil, :object 2}\n"
                                 "{:process 0, :type :invoke, :f :assoc, :value [1 10], :object 3}\n"
                                 "{:process 0, :type :ok, :f :assoc, :value nil, :object 3}\n"
                                 "{:process 0, :type :invoke, :f :replace, :value [1 10 11], :object 3}\n"
                                 "{:process 0, :type :ok, :f :replace, :value true, :object 3}\n";
    want_text(&recorder, wanted, "sets, counters and locks");
}

/* Of five calls the second and third overlap, and the fourth and the one that did not return. */
static void overlap(void) {
    struct recorder recorder;
    size_t at_once;
    recorder_open(&recorder, 2);
    struct journal *one = &recorder.journals[0], *other = &recorder.journals[1];
    JOURNAL_CALL(one, 0, "enqueue", fcbench_number(1), fcbench_nil());
    size_t call = journal_invoke(one, 0, "enqueue", fcbench_number(2));
    JOURNAL_CALL(other, 0, "enqueue", fcbench_number(3), (journal_return(one, call, fcbench_nil()), fcbench_nil()));
    journal_invoke(one, 0, "enqueue", fcbench_number(4));
    journal_invoke(other, 0, "enqueue", fcbench_number(5));
    want(recorder_overlap(&recorder, &at_once) == 0.8 && at_once == 2, "four of five calls overlap", "");
    recorder_close(&recorder);
}

int main(int count, char **words) {
    int runs = count > 1 ? atoi(words[1]) : 100;
    pending_calls();
    the_example_at_the_head();
    a_journal_that_is_lost();
    a_reply_that_is_not_the_argument();
    replies_of_calls_that_give_nothing();
    calls_that_may_fail();
    calls_that_are_known_when_they_returned();
    sets_counters_and_locks();
    overlap();
    for (int run = 0; run < runs; run++) {
        judge_run(false);
        judge_run(true);
    }
    printf("test_recorder: passed, %d runs of each\n", runs);
    return 0;
}
