#pragma once

#include <chrono>
#include <cstddef>
#include <map>
#include <string>
#include <vector>

namespace edge {

/// How many lines of one kind are said: some in each second, and of the others the count. Lines are of one kind where
/// their first words are the same, but for those that have a digit.
class Quiet {
public:
    using Clock = std::chrono::steady_clock;

    /// Whether this line is said now, of which so many may be in a second.
    bool lets(const std::string &line, int most);

    /// Lines that say how many others weren't said in seconds that have ended. It comes before `lets`.
    std::vector<std::string> counts();

private:
    struct Kind {
        Clock::time_point since;  // When its second began.
        int said;
        long unsaid;
    };

    std::map<std::string, Kind> kinds_;
};

}
