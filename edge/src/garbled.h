#pragma once

#include <cstddef>
#include <string>

namespace edge {

/// Whether what a member's engine is asked for comes garbled each time that it is sent again. FIX passes over what is
/// garbled, so both sides would wait for one another. It stands beside passed_over.h, which ends a run of such messages.
class Garbled {
public:
    enum class Act { PassOver, AskAgain, End };

    /// So many garbled messages have come, while this number is expected.
    Act came(long expected, std::size_t count);

    /// Another one has come, with this number, while this one was expected.
    void good(long number, long expected);

    /// Why it ends, in words.
    std::string why() const;

    /// There is another connection.
    void clear() { *this = Garbled(); }

private:
    std::size_t again_ = 0;
    long gap_ = 0;  // The number that the session has asked for, or 0.
};

}
