// Calls the library: a yes, a no, a malformed text, a buffer that is too small, and several threads at once.
#include "fcbench.hpp"
#include <atomic>
#include <cstdlib>
#include <cstring>
#include <iostream>
#include <thread>
#include <vector>

static const std::string queue =
    "{:process 0, :type :invoke, :f :enqueue, :value 1}\n"
    "{:process 0, :type :ok, :f :enqueue, :value 1}\n"
    "{:process 0, :type :invoke, :f :dequeue}\n"
    "{:process 0, :type :ok, :f :dequeue, :value 1}\n";
static const std::string yes_lines = "yes: 2 operations, 1 objects\nqueue: 1 objects, 2 operations\n";
// The register contains 2 where 1 is read.
static const std::string old_read =
    "{:process 0, :type :invoke, :f :write, :value 1}\n"
    "{:process 0, :type :ok, :f :write, :value 1}\n"
    "{:process 0, :type :invoke, :f :write, :value 2}\n"
    "{:process 0, :type :ok, :f :write, :value 2}\n"
    "{:process 0, :type :invoke, :f :read}\n"
    "{:process 0, :type :ok, :f :read, :value 1}\n";

static void want(bool holds, const char *what) {
    if (!holds) {
        std::cerr << "test_judge: " << what << "\n";
        std::exit(1);
    }
}

static void answers() {
    const auto yes = fcbench::judge(queue);
    want(yes.is_yes() && yes.lines() == yes_lines, "a queue is judged");
    const auto no = fcbench::judge(old_read);
    want(no.is_no() && no.lines().rfind("; object 0: impossible\n", 0) == 0, "a register is refuted");
    const auto at = no.lines().find("; {:object 0, :cuts ");
    want(at != std::string::npos, "it comes with a reason");
    want(fcbench::refute(old_read, no.lines().substr(at + 2)).is_no(), "the reason is accepted");
    want(no.reasons() == no.lines().substr(at + 2), "the reasons are its last line");
    want(fcbench::refute(old_read, no.reasons()).is_no() && yes.reasons().empty(), "and are accepted");
    want(fcbench::verify(old_read, no.reasons()).is_no(), "also as evidence");
    want(fcbench::verify(queue, fcbench::find(queue).lines()).lines() == yes_lines, "as is an order");
    want(fcbench::judge("").lines() == "yes: 0 operations, 0 objects\n", "a history without a map is a yes");
    const auto malformed = fcbench::judge("{:process 0");
    want(malformed.verdict() == fcbench::Verdict::Malformed && malformed.lines() == "malformed history: E2 at byte 11\n", "a text that ends early");
}

// The reasons of two objects are two lines.
static void reasons_of_two_objects() {
    std::string other;
    for (const char at : old_read) {
        other += at == '0' ? std::string("1") : at == '}' ? std::string(", :object 1}") : std::string(1, at);
    }
    const auto reasons = fcbench::judge(old_read + other).reasons();
    want(std::count(reasons.begin(), reasons.end(), '\n') == 2 && reasons.rfind("{:object 0, ", 0) == 0, "a reason for each object");
    want(fcbench::refute(old_read + other, reasons).is_no(), "both are accepted");
}

static void certificates() {
    const auto found = fcbench::find(queue);
    want(found.is_yes() && found.lines() == "{:object 0, :order [0 2]}\n", "certificates are found");
    want(fcbench::check(queue, found.lines()).is_yes(), "and accepted");
    const auto none = fcbench::check(queue, "");
    want(none.is_no() && none.lines() == "no: C1 object 0 has no certificate\n", "none are refused");
}

static void a_buffer_too_small() {
    std::uint8_t out[16];
    std::size_t needed = 0;
    std::memset(out, '-', sizeof out);
    const auto status = fcbench_judge(fcbench::bytes_of(queue), queue.size(), FCBENCH_STEPS, out, 10, &needed);
    want(status == FCBENCH_YES && needed == yes_lines.size(), "the status is right, and how long the lines are");
    want(std::memcmp(out, "yes: 2 ope------", 16) == 0, "the lines are cut, and nothing is written after the buffer");
    int calls = 0;
    const auto whole = fcbench::Answer::of(fcbench::Function::Judge, [&](std::uint8_t *lines, std::size_t capacity, std::size_t *length) {
        calls++;
        return fcbench_judge(fcbench::bytes_of(queue), queue.size(), FCBENCH_STEPS, lines, capacity, length);
    }, 10);
    want(whole.lines() == yes_lines && calls == 2, "an answer calls again for all lines");
}

// Each thread gets the answers of a call alone.
static void several_threads_at_once() {
    const auto no = fcbench::judge(old_read);
    std::atomic<int> right{0};
    std::vector<std::thread> threads;
    for (int thread = 0; thread < 4; thread++) {
        threads.emplace_back([&] {
            for (int turn = 0; turn < 100; turn++) {
                const auto found = fcbench::find(queue);
                const auto yes = fcbench::check(queue, found.lines());
                const auto again = fcbench::judge(old_read);
                const bool is_right = yes.is_yes() && yes.lines() == yes_lines && again.is_no() && again.lines() == no.lines();
                right += is_right && fcbench::refute(old_read, again.reasons()).is_no();
            }
        });
    }
    for (auto &thread : threads) {
        thread.join();
    }
    want(right == 400, "several threads at once get the answers of a call alone");
}

int main() {
    answers();
    reasons_of_two_objects();
    certificates();
    a_buffer_too_small();
    several_threads_at_once();
    std::cout << "test_judge: passed\n";
}
