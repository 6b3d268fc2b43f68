// Drives a right queue and one with a race by 4 threads, records them, and judges the histories.
//
//     test_recorder [RUNS]
#include "fcbench.hpp"
#include "recorder.hpp"
#include <chrono>
#include <cstdlib>
#include <iostream>
#include <mutex>
#include <set>
#include <sstream>
#include <stdexcept>
#include <thread>

using Clock = std::chrono::steady_clock;

static constexpr int threads = 4, calls = 50, most_operations = 5;
// Of the calls of a right queue more overlap another one: all but some of the thread that ends last.
static constexpr double least_overlap = 0.5;
// A thread waits no longer for others: only where one of them has died.
static constexpr std::chrono::seconds patience(60);

static void want(bool holds, const char *what, const std::string &lines) {
    if (!holds) {
        std::cerr << "test_recorder: " << what << "\n" << lines;
        std::exit(1);
    }
}

// Its dequeue reads the index of the head and then moves it.
class Queue {
public:
    Queue(bool has_race, int working) : has_race_(has_race), values_(threads * calls), working_(working) {}

    // In a right queue each call waits at first, so that calls overlap on each machine.
    void enqueue(std::int64_t value) {
        if (!has_race_) {
            wait_for_another();
        }
        std::lock_guard<std::mutex> lock(enqueuing_);
        values_[tail_] = value;
        tail_++;
    }

    std::optional<std::int64_t> dequeue() {
        if (has_race_) {
            return take();
        }
        wait_for_another();
        std::lock_guard<std::mutex> lock(dequeuing_);
        return take();
    }

    // A thread calls it when it has made its last call.
    void leave() { working_--; }

private:
    // The race: another thread may come in between and take the same value. A thread waits for one, so each run has the
    // fault: the first two that come in take the same.
    std::optional<std::int64_t> take() {
        const std::size_t head = head_;
        if (head == tail_) {
            return std::nullopt;
        }
        if (has_race_) {
            wait_for_another();
        }
        head_ = head + 1;
        return values_[head];
    }

    // Waits until another thread is here too, or no other one is at work. While a thread waits, the others need not, so
    // they go on and end.
    void wait_for_another() {
        waiting_++;
        while (waiting_ < 2 && working_ > 1 && Clock::now() < deadline_) {
            std::this_thread::yield();
        }
        waiting_--;
    }

    const bool has_race_;
    std::vector<std::int64_t> values_;
    const Clock::time_point deadline_ = Clock::now() + patience;
    std::atomic<std::size_t> head_{0}, tail_{0};
    std::atomic<int> waiting_{0}, working_;
    std::mutex enqueuing_, dequeuing_;
};

static void work(Queue &queue, fcbench::Journal &journal, std::int64_t first) {
    for (std::int64_t i = 0; i < calls; i++) {
        const std::int64_t value = first + i;
        if (i % 2 == 0) {
            journal.call("enqueue", value, [&] { queue.enqueue(value); });
        } else {
            journal.call("dequeue", std::nullopt, [&] { return queue.dequeue(); });
        }
    }
    queue.leave();
}

static std::pair<std::string, double> record(bool has_race) {
    Queue queue(has_race, threads);
    fcbench::Recorder recorder;
    std::vector<fcbench::Journal> journals;
    std::vector<std::thread> clients;
    for (int i = 0; i < threads; i++) {
        journals.push_back(recorder.journal());
    }
    for (int i = 0; i < threads; i++) {
        clients.emplace_back([&, i] { work(queue, journals[i], i * calls); });
    }
    for (std::thread &client : clients) {
        client.join();
    }
    const auto overlap = recorder.overlap(journals);
    want(0 < overlap.at_once && overlap.at_once <= threads, "at most one call of each thread is outstanding", "");
    return {recorder.history(journals), overlap.share};
}

static int operations_in(const std::string &lines) {
    std::istringstream text(lines);
    int count = 0;
    for (std::string line; std::getline(text, line);) {
        count += line.rfind("; event", 0) == 0;
    }
    return count;
}

static void judge_run(bool has_race) {
    const auto [history, share] = record(has_race);
    const auto answer = fcbench::judge(history);
    if (!has_race) {
        want(answer.is_yes(), "the right queue is linearizable", answer.lines());
        want(share > least_overlap, "its calls overlap", "");
        return;
    }
    const int operations = operations_in(answer.lines());
    want(answer.is_no(), "the wrong queue is refuted", answer.lines());
    want(0 < operations && operations <= most_operations, "by a reason of few operations", answer.lines());
}

// A call that did not return ends with :info, and its thread goes on as a new process.
static void pending_calls() {
    fcbench::Recorder recorder;
    std::vector<fcbench::Journal> journals;
    journals.push_back(recorder.journal());
    journals.push_back(recorder.journal());
    try {
        journals[1].call_on(3, "cas", fcbench::Value(7, 8), []() -> fcbench::Value { throw std::runtime_error("timeout"); });
    } catch (const std::runtime_error &) {
    }
    journals[1].call_on(3, "cas", fcbench::Value(8, 9), [] { return fcbench::Value::no(); });
    const std::string text = recorder.history(journals);
    want(text == "{:process 1, :type :invoke, :f :cas, :value [7 8], :object 3}\n"
                 "{:process 1, :type :info, :f :cas, :value [7 8], :object 3}\n"
                 "{:process 2, :type :invoke, :f :cas, :value [8 9], :object 3}\n"
                 "{:process 2, :type :ok, :f :cas, :value false, :object 3}\n",
         "a call that did not return is written with :info", text);
}

static void the_example_at_the_head() {
    Queue queue(false, 1);
    fcbench::Recorder recorder;
    std::vector<fcbench::Journal> journals; // before the threads, one for each
    journals.push_back(recorder.journal());
    std::thread client([&] {
        fcbench::Journal &journal = journals[0];
        journal.call("enqueue", 7, [&] { queue.enqueue(7); });
        journal.call("dequeue", std::nullopt, [&] { return queue.dequeue(); });
    });
    client.join();
    const std::string text = recorder.history(journals);
    want(text == "{:process 0, :type :invoke, :f :enqueue, :value 7, :object 0}\n"
                 "{:process 0, :type :ok, :f :enqueue, :value 7, :object 0}\n"
                 "{:process 0, :type :invoke, :f :dequeue, :value nil, :object 0}\n"
                 "{:process 0, :type :ok, :f :dequeue, :value 7, :object 0}\n",
         "the example at the head of recorder.hpp", text);
}

template <class Act>
static std::string message_of(Act act) {
    try {
        act();
    } catch (const std::logic_error &error) {
        return error.what();
    }
    return "nothing is thrown";
}

// Without the calls of the lost journal the history says that 7 is dequeued and was never enqueued.
static void a_journal_that_is_not_handed_in() {
    fcbench::Recorder recorder, another;
    std::vector<fcbench::Journal> journals;
    journals.push_back(recorder.journal());
    std::thread([&] {
        fcbench::Journal lost = recorder.journal();
        lost.call("enqueue", 7, [] {});
        lost.invoke(0, "enqueue", 8);
    }).join();
    journals[0].call("dequeue", std::nullopt, [] { return 7; });
    const std::string missing = message_of([&] { return recorder.history(journals); });
    want(missing == "3 events are missing: a journal is missing, or this recorder has already made a history", "a missing journal", missing);
    const std::string foreign = message_of([&] { return another.history(journals); });
    want(foreign == "a journal of another recorder was handed in", "a journal of another recorder", foreign);
    static_assert(!std::is_copy_constructible_v<fcbench::Journal>, "a copy would take calls with it");
}

// A reply that no history can have is refused before its ticket is drawn: the call is outstanding as before, and is then pending.
static void a_reply_that_no_history_can_have() {
    fcbench::Recorder recorder(false);
    std::vector<fcbench::Journal> journals;
    journals.push_back(recorder.journal());
    const std::string said = message_of([&] { journals[0].call("dequeue", std::nullopt, [] { return UINT64_MAX; }); });
    want(said == "a number does not fit in 64 bits with sign: 18446744073709551615", "a reply past 64 bits with sign", said);
    const std::string text = recorder.history(journals);
    want(text == "{:process 0, :type :invoke, :f :dequeue, :value nil, :object 0}\n"
                 "{:process 0, :type :info, :f :dequeue, :value nil, :object 0}\n",
         "a call whose reply was refused", text);
}

// The reply of a function that puts a value in is its argument, also where the call gives nothing.
static void replies_of_calls_that_give_nothing() {
    fcbench::Recorder recorder;
    std::vector<fcbench::Journal> journals;
    journals.push_back(recorder.journal());
    std::uint16_t object = 0;
    for (const char *function : {"enqueue", "push", "insert", "write"}) {
        journals[0].call_on(object, function, 7, [] {});
        journals[0].try_call_on(object, function, 8, [] { return true; });
        object++;
    }
    journals[0].call_on(object, "acquire", std::nullopt, [] {});
    journals[0].call_on(object, "release", std::nullopt, [] {});
    const auto answer = fcbench::judge(recorder.history(journals));
    want(answer.lines().rfind("yes: 10 operations", 0) == 0, "calls that give nothing", answer.lines());
}

// A reply that is not the argument, as a length, is refused.
static void a_reply_that_is_not_the_argument() {
    fcbench::Recorder recorder;
    std::vector<fcbench::Journal> journals;
    journals.push_back(recorder.journal());
    journals[0].call("enqueue", 7, [] {});
    journals[0].call("enqueue", 8, [] { return 2; });
    const std::string said = message_of([&] { return recorder.history(journals); });
    want(said == "enqueue replied 2 and not its argument 8: let the call give nothing", "a reply that is not the argument", said);
}

// Only a reply that says so says that nothing was there.
static void a_reply_that_is_not_given() {
    for (const char *function : {"put", "del", "get", "dequeue", "cas"}) {
        fcbench::Recorder recorder;
        std::vector<fcbench::Journal> journals;
        journals.push_back(recorder.journal());
        journals[0].call(function, 1, [] {});
        const std::string said = message_of([&] { return recorder.history(journals); });
        want(said == function + std::string(" was given no reply: std::nullopt says that nothing was there"), "a reply that is not given", said);
    }
}

// Put-if-absent twice on one key, and a fetch-and-add.
static void calls_that_are_known_when_they_returned() {
    fcbench::Recorder recorder(false);
    std::vector<fcbench::Journal> journals;
    journals.push_back(recorder.journal());
    fcbench::Journal &journal = journals[0];
    journal.invoke(0, "put", {1, 5});
    journal.returned_as("put", {1, 5}, std::nullopt);
    journal.invoke(0, "put", {1, 6});
    journal.returned_as("get", 1, 5);
    journal.call_on(1, "write", 3, [] {});
    journal.invoke(1, "cas", {0, 1});
    journal.returned_as("cas", {3, 4}, fcbench::Value(3, 4));
    const std::string text = recorder.history(journals);
    want(text == "{:process 0, :type :invoke, :f :put, :value [1 5], :object 0}\n"
                 "{:process 0, :type :ok, :f :put, :value nil, :object 0}\n"
                 "{:process 0, :type :invoke, :f :get, :value 1, :object 0}\n"
                 "{:process 0, :type :ok, :f :get, :value 5, :object 0}\n"
                 "{:process 0, :type :invoke, :f :write, :value 3, :object 1}\n"
                 "{:process 0, :type :ok, :f :write, :value 3, :object 1}\n"
                 "{:process 0, :type :invoke, :f :cas, :value [3 4], :object 1}\n"
                 "{:process 0, :type :ok, :f :cas, :value [3 4], :object 1}\n",
         "calls that are known when they returned", text);
    want(fcbench::judge(text).is_yes(), "they are linearizable", text);
}

// Of five calls the second and third overlap, and the fourth and the one that is pending.
static void overlap() {
    fcbench::Recorder recorder;
    std::vector<fcbench::Journal> journals;
    journals.push_back(recorder.journal());
    journals.push_back(recorder.journal());
    journals[0].call("enqueue", 1, [] {});
    journals[0].invoke(0, "enqueue", 2);
    journals[1].call("enqueue", 3, [&] { journals[0].returned(); });
    journals[0].invoke(0, "enqueue", 4);
    journals[1].invoke(0, "enqueue", 5);
    const auto found = recorder.overlap(journals);
    want(found.share == 0.8 && found.at_once == 2, "four of five calls overlap", "");
}

// A queue whose pop gives a bool, and writes what it took.
class PopQueue {
public:
    bool try_push(int value) { return values_.push_back(value), true; }
    bool try_pop(int &out) {
        if (values_.empty()) {
            return false;
        }
        out = values_.front();
        values_.erase(values_.begin());
        return true;
    }

private:
    std::vector<int> values_;
};

// A bool is no reply of dequeue: written as nil, a right queue would get a no.
static void calls_that_give_a_bool() {
    fcbench::Recorder recorder;
    std::vector<fcbench::Journal> journals;
    journals.push_back(recorder.journal());
    fcbench::Journal &journal = journals[0];
    PopQueue queue;
    journal.try_call("enqueue", 7, [&] { return queue.try_push(7); });
    for (const char *function : {"dequeue", "read", "cas", "put"}) {
        const std::string said = message_of([&] { journal.try_call(function, std::nullopt, [&] { int out; return queue.try_pop(out); }); });
        const std::string wanted = std::string("a bool is no reply of ") + function + ": give a std::optional of the reply";
        want(said == wanted, "a bool is no reply", said);
    }
    journal.call("dequeue", std::nullopt, [&] { int out; return queue.try_pop(out) ? std::optional(out) : std::nullopt; });
    journal.call("dequeue", std::nullopt, [&] { int out; return queue.try_pop(out) ? std::optional(out) : std::nullopt; });
    journal.try_call_on(1, "acquire", std::nullopt, [] { return true; });
    const std::string text = recorder.history(journals);
    want(text == "{:process 0, :type :invoke, :f :enqueue, :value 7, :object 0}\n"
                 "{:process 0, :type :ok, :f :enqueue, :value 7, :object 0}\n"
                 "{:process 0, :type :invoke, :f :dequeue, :value nil, :object 0}\n"
                 "{:process 0, :type :ok, :f :dequeue, :value 7, :object 0}\n"
                 "{:process 0, :type :invoke, :f :dequeue, :value nil, :object 0}\n"
                 "{:process 0, :type :ok, :f :dequeue, :value nil, :object 0}\n"
                 "{:process 0, :type :invoke, :f :acquire, :value nil, :object 1}\n"
                 "{:process 0, :type :ok, :f :acquire, :value nil, :object 1}\n",
         "calls that give a bool", text);
    want(fcbench::judge(text).is_yes(), "a queue whose pop gives a bool is linearizable", text);
}

// A call that definitely failed, and one in steps that timed out, failed or returned.
static void failed_calls_and_steps() {
    fcbench::Recorder recorder;
    std::vector<fcbench::Journal> journals;
    journals.push_back(recorder.journal());
    fcbench::Journal &journal = journals[0];
    want(!journal.try_call("enqueue", 6, [] { return false; }), "a call fails", "");
    const auto none = journal.try_call_on(1, "read", std::nullopt, [] { return std::optional<std::int64_t>(); });
    want(!none.has_value(), "another call fails", "");
    journal.invoke(0, "enqueue", 7);
    journal.gave_up();
    journal.invoke(0, "enqueue", 8);
    journal.failed();
    want(*journal.try_call("dequeue", std::nullopt, [] { return std::optional<int>(7); }) == 7, "a call does not fail", "");
    journal.invoke(0, "enqueue", 9);
    journal.returned();
    want(message_of([&] { journal.returned(9); }) == "no call is outstanding", "a return too much", "");
    journal.invoke(0, "enqueue", 10);
    const std::string text = recorder.history(journals);
    want(text == "{:process 0, :type :invoke, :f :enqueue, :value 6, :object 0}\n"
                 "{:process 0, :type :fail, :f :enqueue, :value nil, :object 0}\n"
                 "{:process 0, :type :invoke, :f :read, :value nil, :object 1}\n"
                 "{:process 0, :type :fail, :f :read, :value nil, :object 1}\n"
                 "{:process 0, :type :invoke, :f :enqueue, :value 7, :object 0}\n"
                 "{:process 0, :type :info, :f :enqueue, :value 7, :object 0}\n"
                 "{:process 1, :type :invoke, :f :enqueue, :value 8, :object 0}\n"
                 "{:process 1, :type :fail, :f :enqueue, :value nil, :object 0}\n"
                 "{:process 1, :type :invoke, :f :dequeue, :value nil, :object 0}\n"
                 "{:process 1, :type :ok, :f :dequeue, :value 7, :object 0}\n"
                 "{:process 1, :type :invoke, :f :enqueue, :value 9, :object 0}\n"
                 "{:process 1, :type :ok, :f :enqueue, :value 9, :object 0}\n"
                 "{:process 1, :type :invoke, :f :enqueue, :value 10, :object 0}\n"
                 "{:process 1, :type :info, :f :enqueue, :value 10, :object 0}\n",
         "calls that failed, and calls in steps", text);
    want(fcbench::judge(text).is_yes(), "they are linearizable", text);
}

// Numbers of each type but bool, and pairs of them.
static void values() {
    const fcbench::Value all[] = {7, 7u, 7l, 7ul, 7ll, 7ull, short{7}, std::uint8_t{7}, std::size_t{7}, std::optional<int>(7),
                                  std::optional<std::size_t>(7)};
    for (const fcbench::Value &value : all) {
        want(value.text() == "7", "a number", value.text());
    }
    want(fcbench::Value(std::size_t{1}, -2).text() == "[1 -2]", "a pair", "");
    want(fcbench::Value(std::optional<int>()).text() == "nil" && fcbench::Value().text() == "nil", "nil", "");
    using fcbench::Value;
    static_assert(!std::is_constructible_v<Value, bool> && !std::is_constructible_v<Value, std::optional<bool>>, "`no` says false");
    static_assert(!std::is_constructible_v<Value, double> && !std::is_constructible_v<Value, int, bool>, "integers alone");
    want(Value(INT64_MIN).text() == "-9223372036854775808" && Value(std::uint64_t{INT64_MAX}).text() == "9223372036854775807", "64 bits", "");
    const std::uint64_t large = std::uint64_t{INT64_MAX} + 1;
    for (const std::string &said : {message_of([&] { Value it(large); }), message_of([&] { Value it(std::optional<std::uint64_t>{large}); }),
                                    message_of([&] { Value it(1, large); })}) {
        want(said == "a number does not fit in 64 bits with sign: 9223372036854775808", "a number of 64 bits without sign", said);
    }
}

// A set, a counter, a lock, and a map that does not tell what was there.
static void sets_counters_and_locks() {
    fcbench::Recorder recorder(false);
    std::vector<fcbench::Journal> journals;
    journals.push_back(recorder.journal());
    fcbench::Journal &journal = journals[0];
    std::set<int> set;
    using fcbench::Value;
    for (int element : {7, 7}) { // the second time it is there
        journal.call("add", element, [&] { return fcbench::Value::truth(set.insert(element).second); });
        journal.call("contains", element, [&] { return fcbench::Value::truth(set.count(element) == 1); });
    }
    journal.call("remove", 7, [&] { return Value::truth(set.erase(7) == 1); });
    std::atomic<int> counter{0};
    journal.call_on(1, "fetch-add", 2, [&] { return counter.fetch_add(2); });
    journal.call_on(1, "get-count", std::nullopt, [&] { return counter.load(); });
    journal.call_on(2, "lock", 1, [] {});
    journal.call_on(2, "unlock", 1, [] {});
    journal.call_on(3, "assoc", {1, 10}, [] {});
    journal.call_on(3, "replace", {1, 10, 11}, [] { return Value::truth(true); });
    const std::string text = recorder.history(journals);
    want(text.find(":f :replace, :value [1 10 11], :object 3") != std::string::npos, "the argument of replace", text);
    const auto answer = fcbench::judge(text);
    want(answer.lines().rfind("yes: 11 operations, 4 objects", 0) == 0, "sets, counters and locks", answer.lines());
}

int main(int count, char **words) {
    const int runs = count > 1 ? std::atoi(words[1]) : 100;
    the_example_at_the_head();
    a_journal_that_is_not_handed_in();
    replies_of_calls_that_give_nothing();
    a_reply_that_is_not_the_argument();
    a_reply_that_is_not_given();
    a_reply_that_no_history_can_have();
    calls_that_are_known_when_they_returned();
    overlap();
    calls_that_give_a_bool();
    pending_calls();
    failed_calls_and_steps();
    values();
    sets_counters_and_locks();
    for (int run = 0; run < runs; run++) {
        judge_run(false);
        judge_run(true);
    }
    std::cout << "test_recorder: passed, " << runs << " runs of each\n";
}
