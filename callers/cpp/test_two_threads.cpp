// The example of docs/embedding.md: two threads share a queue, and what they did is judged, 100 times.
#include "fcbench.hpp"
#include "recorder.hpp"
#include <atomic>
#include <deque>
#include <fstream>
#include <iostream>
#include <mutex>
#include <optional>
#include <string>
#include <thread>
#include <vector>

class Queue { // your queue
public:
    void enqueue(int value) {
        const std::lock_guard<std::mutex> held(lock_);
        values_.push_back(value);
    }

    bool try_dequeue(int &out) {
        const std::lock_guard<std::mutex> held(lock_);
        if (values_.empty()) {
            return false;
        }
        out = values_.front();
        values_.pop_front();
        return true;
    }

private:
    std::mutex lock_;
    std::deque<int> values_;
};

static void work(Queue &queue, fcbench::Journal &journal, int client, std::atomic<int> &missing) {
    const auto dequeue = [&] {
        int out;
        return queue.try_dequeue(out) ? std::optional(out) : std::nullopt;
    };
    journal.call("dequeue", std::nullopt, [&] {
        for (--missing; missing > 0;) { // both begin together, inside of their first calls
            std::this_thread::yield();
        }
        return dequeue();
    });
    for (int value = client * 100; value < client * 100 + 100; ++value) {
        journal.call("enqueue", value, [&] { queue.enqueue(value); });
        journal.call("dequeue", std::nullopt, dequeue);
    }
}

int main() {
    double shares = 0; // of each round, how many of its calls overlapped another one
    for (int round = 0; round < 100; ++round) {
        Queue queue;
        fcbench::Recorder recorder;
        std::vector<fcbench::Journal> journals; // before the threads, one for each
        journals.push_back(recorder.journal());
        journals.push_back(recorder.journal());
        std::atomic<int> missing(2);
        std::thread other([&] { work(queue, journals[1], 1, missing); });
        work(queue, journals[0], 0, missing);
        other.join();
        shares += recorder.overlap(journals).share;
        const std::string history = recorder.history(journals);
        const fcbench::Answer answer = fcbench::judge(history);
        if (!answer.is_yes() || answer.lines().rfind("yes: 402 operations", 0) != 0) {
            std::ofstream file("queue.history.edn");
            std::cerr << ((file << history).flush() ? "" : "queue.history.edn cannot be written\n") << answer.lines();
            return 1;
        }
    }
    std::cout << shares << " % of the calls overlapped another one\n";
    return shares > 10 ? 0 : 1;
}
