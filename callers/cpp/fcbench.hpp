// The judge of fcbench for C++17: see fcbench.h for what each answer means. Copy this file and fcbench.h.
//
//     fcbench::Answer answer = fcbench::judge(history);
//     if (answer.is_no()) std::cerr << answer.lines();
#ifndef FCBENCH_HPP
#define FCBENCH_HPP

#include "fcbench.h"
#include <algorithm>
#include <cstddef>
#include <cstdint>
#include <iterator>
#include <stdexcept>
#include <string>
#include <string_view>
#include <utility>

namespace fcbench {

enum class Verdict : std::uint32_t {
    Yes = FCBENCH_YES,
    No = FCBENCH_NO,
    Malformed = FCBENCH_MALFORMED,
    Undecided = FCBENCH_UNDECIDED,
};

// Status and lines are of no answer: the library is not libfcbench, or not as it was built.
struct NoAnswer : std::runtime_error {
    using std::runtime_error::runtime_error;
};

// The functions of the library.
enum class Function { Check, Find, Judge, Refute, Verify };

// What the first line of an answer with a status may begin with; "": there may be no line.
struct Beginning {
    Function function;
    std::uint32_t status;
    std::string_view text;
};

inline constexpr Beginning beginnings[] = {
    {Function::Check, FCBENCH_YES, "yes: "},
    {Function::Check, FCBENCH_NO, "no: "},
    {Function::Check, FCBENCH_MALFORMED, "malformed history: "},
    {Function::Check, FCBENCH_MALFORMED, "malformed certificates: "},
    {Function::Check, FCBENCH_UNDECIDED, "out of memory\n"},
    {Function::Find, FCBENCH_YES, "{:object "},
    {Function::Find, FCBENCH_YES, ""},
    {Function::Find, FCBENCH_MALFORMED, "malformed history: "},
    {Function::Find, FCBENCH_UNDECIDED, "{:object "},
    {Function::Find, FCBENCH_UNDECIDED, "; object "},
    {Function::Find, FCBENCH_UNDECIDED, ""},
    {Function::Refute, FCBENCH_NO, "not linearizable: object "},
    {Function::Refute, FCBENCH_NO, "object "},
    {Function::Refute, FCBENCH_MALFORMED, "malformed history: "},
    {Function::Refute, FCBENCH_MALFORMED, "malformed reasons: "},
    {Function::Refute, FCBENCH_UNDECIDED, "object "},
    {Function::Refute, FCBENCH_UNDECIDED, "out of memory\n"},
    {Function::Refute, FCBENCH_UNDECIDED, ""},
    {Function::Verify, FCBENCH_YES, "yes: "},
    {Function::Verify, FCBENCH_NO, "; object "},
    {Function::Verify, FCBENCH_MALFORMED, "malformed history: "},
    {Function::Verify, FCBENCH_UNDECIDED, "; object "},
    {Function::Verify, FCBENCH_UNDECIDED, "malformed evidence: "},
    {Function::Verify, FCBENCH_UNDECIDED, "out of memory\n"},
};

inline bool begins_with(std::string_view text, std::string_view beginning) noexcept {
    return text.substr(0, beginning.size()) == beginning;
}

// Whether only a no has this line; of `find`, whether no yes has it.
inline bool is_of_a_no(Function function, std::string_view line) noexcept {
    constexpr std::string_view impossible = ": impossible";
    switch (function) {
    case Function::Check: return begins_with(line, "no: ");
    case Function::Find: return !line.empty() && line.find(", :order ") == std::string_view::npos;
    case Function::Refute: return begins_with(line, "not linearizable: object ");
    default:
        return begins_with(line, "; object ") && line.size() > impossible.size() &&
               line.substr(line.size() - impossible.size()) == impossible;
    }
}

// Whether a yes may have this line: the counts of the history, or of a kind.
inline bool is_of_a_yes(std::string_view line) noexcept {
    const auto ends = [&](std::string_view end) { return line.size() >= end.size() && line.substr(line.size() - end.size()) == end; };
    return line.empty() || (begins_with(line, "yes: ") && ends(" objects")) || (!begins_with(line, ";") && ends(" operations"));
}

// Whether these are all lines of an answer with this status, by the table of docs/commands.md.
inline bool fits(Function function, std::uint32_t status, std::string_view lines) {
    const Function of = function == Function::Judge ? Function::Verify : function;
    const bool begins = std::any_of(std::begin(beginnings), std::end(beginnings), [&](const Beginning &it) {
        return it.function == of && it.status == status && (it.text.empty() ? lines.empty() : begins_with(lines, it.text));
    });
    bool has_no = false, are_of_a_yes = true;
    for (std::size_t at = 0, end; at < lines.size(); at = end + 1) {
        end = std::min(lines.find('\n', at), lines.size());
        has_no = has_no || is_of_a_no(function, lines.substr(at, end - at));
        are_of_a_yes = are_of_a_yes && is_of_a_yes(lines.substr(at, end - at));
    }
    const bool is_yes = status == FCBENCH_YES;
    const bool says_so = function == Function::Find ? !is_yes || !has_no : has_no == (status == FCBENCH_NO) && (!is_yes || are_of_a_yes);
    return begins && (lines.empty() || lines.back() == '\n') && says_so;
}

// A verdict and all of its lines. It owns the lines, and gives their memory back at its end.
class [[nodiscard]] Answer {
public:
    // Calls with more room until all lines fit in it. `call` takes a buffer, its capacity, and the length that is needed. Throws NoAnswer
    // if the lines do not fit the status.
    template <class Call>
    static Answer of(Function function, Call call, std::size_t capacity = 512) {
        std::string lines(capacity, '\0');
        for (;;) {
            std::size_t needed = 0;
            const std::uint32_t status = call(reinterpret_cast<std::uint8_t *>(lines.data()), lines.size(), &needed);
            const bool is_whole = needed <= lines.size();
            lines.resize(needed);
            if (is_whole && !fits(function, status, lines)) {
                throw NoAnswer("the library gave the status " + std::to_string(status) + " and these lines, which are of no answer: " + lines);
            } else if (is_whole) {
                return Answer(static_cast<Verdict>(status), std::move(lines));
            }
        }
    }

    Verdict verdict() const noexcept { return verdict_; }
    bool is_yes() const noexcept { return verdict_ == Verdict::Yes; }
    bool is_no() const noexcept { return verdict_ == Verdict::No; }
    const std::string &lines() const noexcept { return lines_; }

    // The reasons among the lines, as `refute` reads them: of each line that begins with `; {` what follows the `; `.
    std::string reasons() const {
        std::string reasons;
        for (std::size_t at = 0; at < lines_.size();) {
            const std::size_t end = std::min(lines_.find('\n', at), lines_.size() - 1) + 1;
            if (lines_.compare(at, 3, "; {") == 0) {
                reasons.append(lines_, at + 2, end - at - 2);
            }
            at = end;
        }
        return reasons;
    }

private:
    Answer(Verdict verdict, std::string lines) : verdict_(verdict), lines_(std::move(lines)) {}

    Verdict verdict_;
    std::string lines_;
};

inline const std::uint8_t *bytes_of(std::string_view text) noexcept {
    return reinterpret_cast<const std::uint8_t *>(text.data());
}

inline Answer judge(std::string_view history, std::uint32_t steps = FCBENCH_STEPS) {
    return Answer::of(Function::Judge, [&](std::uint8_t *out, std::size_t capacity, std::size_t *needed) {
        return fcbench_judge(bytes_of(history), history.size(), steps, out, capacity, needed);
    });
}

inline Answer check(std::string_view history, std::string_view certificates) {
    return Answer::of(Function::Check, [&](std::uint8_t *out, std::size_t capacity, std::size_t *needed) {
        return fcbench_check(bytes_of(history), history.size(), bytes_of(certificates), certificates.size(), out, capacity, needed);
    });
}

inline Answer find(std::string_view history) {
    return Answer::of(Function::Find, [&](std::uint8_t *out, std::size_t capacity, std::size_t *needed) {
        return fcbench_find(bytes_of(history), history.size(), out, capacity, needed);
    });
}

inline Answer refute(std::string_view history, std::string_view reasons, std::uint32_t steps = FCBENCH_STEPS) {
    return Answer::of(Function::Refute, [&](std::uint8_t *out, std::size_t capacity, std::size_t *needed) {
        return fcbench_refute(bytes_of(history), history.size(), bytes_of(reasons), reasons.size(), steps, out, capacity, needed);
    });
}

inline Answer verify(std::string_view history, std::string_view evidence, std::uint32_t steps = FCBENCH_STEPS) {
    return Answer::of(Function::Verify, [&](std::uint8_t *out, std::size_t capacity, std::size_t *needed) {
        return fcbench_verify(bytes_of(history), history.size(), bytes_of(evidence), evidence.size(), steps, out, capacity, needed);
    });
}

} // namespace fcbench

#endif
