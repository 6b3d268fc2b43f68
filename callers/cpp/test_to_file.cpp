// The example of docs/embedding.md without the library: two threads share a register, and what they did is written to a file.
#include "recorder.hpp"
#include <fstream>
#include <iostream>

int main() {
    std::atomic<int> shared, missing(2); // your object, here a register
    fcbench::Recorder recorder;
    std::vector<fcbench::Journal> journals; // before the threads, one for each
    journals.push_back(recorder.journal());
    journals.push_back(recorder.journal());
    journals[0].call("write", -1, [&] { shared = -1; }); // before it a register contains nothing
    const auto work = [&](int client) {
        journals[client].call("read", std::nullopt, [&] {
            for (--missing; missing > 0;) { // both begin together, inside of their first calls
                std::this_thread::yield();
            }
            return shared.load();
        });
        for (int value = client * 100; value < client * 100 + 100; ++value) {
            journals[client].call("write", value, [&] { shared = value; });
            journals[client].call("read", std::nullopt, [&] { return shared.load(); });
        }
    };
    std::thread other(work, 1);
    work(0);
    other.join();
    std::ofstream file("register.history.edn");
    if (!(file << recorder.history(journals)).flush()) { // as on a full disk
        std::cerr << "register.history.edn cannot be written\n";
        return 1;
    }
}
