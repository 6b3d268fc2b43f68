// Records the calls of threads on concurrent objects, as a history for fcbench. Copy this file. Needs C++17.
//
//     fcbench::Recorder recorder;
//     std::vector<fcbench::Journal> journals; // before the threads, one for each
//     journals.push_back(recorder.journal());
//     // in a thread, which borrows its journal:
//     fcbench::Journal &journal = journals[0];
//     journal.call("enqueue", 7, [&] { queue.enqueue(7); });
//     journal.call("dequeue", std::nullopt, [&] { return queue.dequeue(); });
//     // after the threads have ended:
//     const std::string text = recorder.history(journals);
//
// An atomic counter gives a ticket before each call and one after it. A thread writes into its own journal and takes no
// lock. The events in the order of their tickets are the history: if it shows one call returning before another was
// invoked, that is what happened. So a history that is not linearizable shows that the object is not.
//
// Calls that never overlap show no fault. So after one ticket of an invocation in eight the thread yields, which leaves room for
// another thread: `fcbench::Recorder recorder(false)` turns this off. `overlap` says how much the calls of the journals overlapped.
//
// A journal that is destroyed, or not handed to `history`, takes its calls with it: `history` throws std::logic_error then.
//
// The reply of enqueue, push, insert and write is their argument: if the call returns nothing, it is written. `history` throws
// if the call returns anything else, such as a length. The reply of cas is its pair if it swapped, else Value::no(). That of put and
// del is what was there before, or std::nullopt if nothing was: a store that does not tell it has assoc and dissoc, whose reply is
// nothing. So is that of clear, acquire, release, lock and unlock. That of add, remove, contains, create, put-if-absent and replace is
// Value::truth of what the call says, and that of fetch-add the number before.
//
// What a call was may be known only when it has returned, as a put-if-absent that gives the value that it found, which is a get then.
// `invoke` it as put-if-absent, since if it times out, it may have put, and end it with
// returned_as("put-if-absent", {k, v}, Value::truth(true)) or returned_as("get", k, found).
//
// An empty queue is a reply, not a failure, so use `call` for `bool try_pop(int &out)`:
//     journal.call("dequeue", std::nullopt, [&] { int out; return queue.try_pop(out) ? std::optional(out) : std::nullopt; });
//
// A call that does not return, such as one that throws or times out, may have happened: its operation ends with :info, and the
// journal goes on as a new process, as Jepsen's threads do. Use `failed` and the false of `try_call` only if the call definitely
// did not happen: if a call that timed out is written as failed, a correct queue gets a no.
#ifndef FCBENCH_RECORDER_HPP
#define FCBENCH_RECORDER_HPP

#include <algorithm>
#include <atomic>
#include <cstddef>
#include <cstdint>
#include <map>
#include <optional>
#include <set>
#include <stdexcept>
#include <string>
#include <thread>
#include <type_traits>
#include <utility>
#include <vector>

namespace fcbench {

// An argument or a reply: nil, a truth value, a number, or a vector of two or three numbers.
class Value {
    template <class T>
    using if_bool = std::enable_if_t<std::is_same_v<T, bool>, int>;
    template <class T>
    using if_number = std::enable_if_t<std::is_integral_v<T> && !std::is_same_v<T, bool>, int>;

public:
    Value(std::nullopt_t = std::nullopt) : text_("nil") {}

    // Each of these throws std::out_of_range at a number that does not fit in 64 bits with sign.
    template <class T, if_number<T> = 0>
    Value(T number) : text_(digits(number)) {}

    template <class T, if_number<T> = 0>
    Value(std::optional<T> number) : text_(number ? digits(*number) : "nil") {}

    template <class T, if_bool<T> = 0>
    Value(T) = delete; // a bool is no argument or reply: give the number of your element, `no` if a cas did not swap, or `truth`

    template <class T, class U, if_number<T> = 0, if_number<U> = 0>
    Value(T first, U second) : text_("[" + digits(first) + " " + digits(second) + "]") {}

    // The argument of replace: a key, what is expected and what is new.
    template <class T, class U, class V, if_number<T> = 0, if_number<U> = 0, if_number<V> = 0>
    Value(T key, U expected, V value) : text_("[" + digits(key) + " " + digits(expected) + " " + digits(value) + "]") {}

    // The reply of add, remove, contains, create, put-if-absent and replace.
    static Value truth(bool is_so) {
        Value value;
        value.text_ = is_so ? "true" : "false";
        return value;
    }

    // A compare-and-set that found another value.
    static Value no() { return truth(false); }

    // No reply: it is enough for functions whose reply is known, as enqueue and acquire.
    static Value not_given() {
        Value value;
        value.is_given_ = false;
        return value;
    }

    bool is_given() const noexcept { return is_given_; }
    bool is_nil() const noexcept { return text_ == "nil"; }
    const std::string &text() const noexcept { return text_; }

private:
    template <class T>
    static std::string digits(T number) {
        if (std::is_unsigned_v<T> && static_cast<std::uint64_t>(number) > std::uint64_t{INT64_MAX}) {
            throw std::out_of_range("a number does not fit in 64 bits with sign: " + std::to_string(number));
        }
        return std::to_string(number);
    }

    std::string text_; // of nil, false and numbers below 16 characters it takes no memory
    bool is_given_ = true;
};

struct Event {
    std::uint64_t ticket;
    std::uint64_t process;
    std::uint16_t object;
    const char *type;
    const char *function; // it is not copied
    Value value;
};

class Recorder;

// What one thread did. Only that thread uses it. It is moved and not copied, since each call is written once.
class Journal {
public:
    Journal(Journal &&) = default;
    Journal &operator=(Journal &&) = default;

    // Makes the call, and records it: `act` makes it and gives its reply, or nothing.
    template <class Act>
    auto call_on(std::uint16_t object, const char *function, Value argument, Act act) {
        invoke(object, function, std::move(argument));
        if constexpr (std::is_void_v<decltype(act())>) {
            act();
            returned();
        } else {
            auto reply = act();
            returned(reply);
            return reply;
        }
    }

    // The same on object 0.
    template <class Act>
    auto call(const char *function, Value argument, Act act) {
        return call_on(0, function, std::move(argument), act);
    }

    // Makes a call that may fail, and records it. `act` gives what is false only if the call definitely did not happen: a
    // std::optional of the reply, or a pointer to it, or a bool. A true has no reply, so a bool is for the functions alone whose
    // reply is known: enqueue, push, insert, write, and those of `is_silent`. Otherwise the call is not made and std::logic_error thrown.
    template <class Act>
    auto try_call_on(std::uint16_t object, const char *function, Value argument, Act act) {
        if (std::is_same_v<decltype(act()), bool> && !is_put(function) && !is_silent(function)) {
            throw std::logic_error(std::string("a bool is no reply of ") + function + ": give a std::optional of the reply");
        }
        invoke(object, function, std::move(argument));
        auto reply = act();
        if (!reply) {
            failed();
        } else if constexpr (std::is_same_v<decltype(reply), bool>) {
            returned();
        } else {
            returned(*reply);
        }
        return reply;
    }

    // The same on object 0.
    template <class Act>
    auto try_call(const char *function, Value argument, Act act) {
        return try_call_on(0, function, std::move(argument), act);
    }

    // Call it just before a call, if `call` does not suit, as in asynchronous code. Then call one of `returned`, `failed` and
    // `gave_up`; if there is none before the next `invoke`, it is `gave_up`.
    void invoke(std::uint16_t object, const char *function, Value argument) {
        if (is_pending_) {
            gave_up();
        }
        // What takes time and memory is done before the ticket of an invocation is drawn.
        events_.push_back({0, process_, object, "invoke", function, std::move(argument)});
        is_pending_ = true;
        const std::uint64_t ticket = (*tickets_)++;
        events_.back().ticket = ticket;
        if (yields_ && mixed(ticket) % calls_to_a_yield == 0) {
            std::this_thread::yield();
        }
    }

    // Call it just after the call returned.
    template <class Reply>
    void returned(const Reply &reply) {
        constexpr bool is_value = std::is_constructible_v<Value, const Reply &>;
        static_assert(is_value, "a reply is an integer, a std::optional of one, or fcbench::Value, and neither a pointer nor a bool: "
                                "give the number of your element");
        if constexpr (is_value) {
            Value value(reply); // if it throws, no ticket is drawn, and the call is outstanding as before
            const std::uint64_t ticket = ended();
            const Event &call = events_.back();
            end(ticket, "ok", value.is_nil() && is_put(call.function) ? call.value : std::move(value));
        }
    }

    void returned() { returned(Value::not_given()); }

    // Like `returned`, if it is known only now what the call was: its invocation is written with this function and argument.
    void returned_as(const char *function, Value argument, Value reply) {
        const std::uint64_t ticket = ended();
        events_.back().function = function;
        events_.back().value = std::move(argument);
        end(ticket, "ok", std::move(reply));
    }

    // Call it only if the call definitely did not happen: it is written with :fail. A timeout is `gave_up`.
    void failed() { end(ended(), "fail", std::nullopt); }

    // Call it if the call may have happened, or may still happen, as after a timeout: it is written with :info, and what
    // follows is of another process.
    void gave_up() {
        const std::uint64_t ticket = ended();
        end(ticket, "info", Value(events_.back().value));
        process_ = (*processes_)++;
    }

private:
    friend class Recorder;
    Journal(std::atomic<std::uint64_t> &tickets, std::atomic<std::uint64_t> &processes, bool yields)
        : tickets_(&tickets), processes_(&processes), process_(processes++), yields_(yields) {}

    // A thread yields after one ticket of an invocation in this many.
    static constexpr std::uint64_t calls_to_a_yield = 8;

    // A number that looks drawn, for each ticket.
    static std::uint64_t mixed(std::uint64_t ticket) { return ticket * 0x9E3779B97F4A7C15u >> 32; }

    // Whether the reply of a function is its argument.
    static bool is_put(const std::string &function) {
        return function == "enqueue" || function == "push" || function == "insert" || function == "write";
    }

    // Whether the reply of a function is a truth value.
    static bool is_question(const std::string &function) {
        for (const char *question : {"add", "remove", "contains", "create", "put-if-absent", "replace"}) {
            if (function == question) {
                return true;
            }
        }
        return false;
    }

    // Whether the reply of a function is nil.
    static bool is_silent(const std::string &function) {
        for (const char *silent : {"acquire", "release", "lock", "unlock", "assoc", "dissoc", "clear"}) {
            if (function == silent) {
                return true;
            }
        }
        return false;
    }

    // Throws if the reply of a call is missing, or is to be its argument and is not.
    void want_replies() const {
        for (std::size_t at = 1; at < events_.size(); at++) {
            const Event &call = events_[at - 1], &end = events_[at];
            if (end.type == std::string("ok") && is_question(end.function) && end.value.text() != "true" && end.value.text() != "false") {
                throw std::logic_error(end.function + (" replied " + end.value.text()) + ", and neither true nor false");
            }
            if (end.type == std::string("ok") && !end.value.is_given() && !is_silent(end.function)) {
                throw std::logic_error(end.function + std::string(" was given no reply: std::nullopt says that nothing was there"));
            }
            if (end.type == std::string("ok") && is_put(end.function) && end.value.text() != call.value.text()) {
                throw std::logic_error(end.function + (" replied " + end.value.text()) + " and not its argument " + call.value.text()
                    + ": let the call give nothing");
            }
        }
    }

    // The ticket of a return is drawn first.
    std::uint64_t ended() {
        if (!is_pending_) {
            throw std::logic_error("no call is outstanding");
        }
        return (*tickets_)++;
    }

    void end(std::uint64_t ticket, const char *type, Value value) {
        const Event &call = events_.back();
        Event event{ticket, process_, call.object, type, call.function, std::move(value)};
        events_.push_back(std::move(event));
        is_pending_ = false;
    }

    std::atomic<std::uint64_t> *tickets_;
    std::atomic<std::uint64_t> *processes_;
    std::uint64_t process_;
    bool yields_;
    bool is_pending_ = false;
    std::vector<Event> events_;
};

// Gives the tickets, and the numbers of processes. One recorder makes one history.
class Recorder {
public:
    explicit Recorder(bool yields = true) : yields_(yields) {}

    Journal journal() { return Journal(tickets_, processes_, yields_); }

    // How much calls overlapped: the share that overlapped another one, from 0 to 1, and how many were outstanding at once at most.
    struct Overlap {
        double share = 0;
        std::size_t at_once = 0;
    };

    // How much the calls of these journals overlapped. If the share is small, the history could hardly have failed.
    static Overlap overlap(const std::vector<Journal> &journals) {
        std::vector<const Event *> events;
        for (const Journal &journal : journals) {
            for (const Event &event : journal.events_) {
                events.push_back(&event);
            }
        }
        std::sort(events.begin(), events.end(), [](const Event *one, const Event *other) { return one->ticket < other->ticket; });
        std::size_t calls = 0;
        std::map<std::uint64_t, std::uint64_t> outstanding; // of each process the ticket of its call
        std::set<std::uint64_t> overlapping;
        Overlap found;
        for (const Event *event : events) {
            if (event->type != std::string("invoke")) {
                outstanding.erase(event->process);
                continue;
            }
            calls++;
            outstanding[event->process] = event->ticket;
            found.at_once = std::max(found.at_once, outstanding.size());
            if (outstanding.size() == 2) {
                overlapping.insert(outstanding.begin()->second);
                overlapping.insert(outstanding.rbegin()->second);
            } else if (outstanding.size() > 2) {
                overlapping.insert(event->ticket);
            }
        }
        found.share = calls == 0 ? 0 : static_cast<double>(overlapping.size()) / static_cast<double>(calls);
        return found;
    }

    // The history, after all threads have ended: each event at the place of its ticket. It takes all journals: without the calls
    // of one of them a correct object could get a no. So it throws if some are missing, also those of a history made before.
    std::string history(std::vector<Journal> &journals) {
        for (Journal &journal : journals) {
            if (journal.tickets_ != &tickets_) {
                throw std::logic_error("a journal of another recorder was handed in");
            }
            if (journal.is_pending_) {
                journal.gave_up();
            }
            journal.want_replies();
        }
        std::vector<const Event *> events(tickets_, nullptr);
        for (const Journal &journal : journals) {
            for (const Event &event : journal.events_) {
                events[event.ticket] = &event;
            }
        }
        const auto missing = std::count(events.begin(), events.end(), nullptr);
        if (missing != 0) {
            throw std::logic_error(std::to_string(missing)
                + " events are missing: a journal is missing, or this recorder has already made a history");
        }
        std::string text;
        for (const Event *event : events) {
            text += line(*event);
        }
        return text;
    }

private:
    static std::string line(const Event &event) {
        return "{:process " + std::to_string(event.process) + ", :type :" + event.type + ", :f :" + event.function + ", :value "
            + event.value.text() + ", :object " + std::to_string(event.object) + "}\n";
    }

    std::atomic<std::uint64_t> tickets_{0};
    std::atomic<std::uint64_t> processes_{0};
    bool yields_;
};

} // namespace fcbench

#endif
