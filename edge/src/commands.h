#pragma once

// What an operator asks the process of a member for. console.h sends it, control.h takes it in, and operators.h carries it
// out.

#include <chrono>
#include <cstddef>
#include <ctime>
#include <functional>
#include <string>

namespace edge {

/// A command of an operator.
struct Command {
    enum class Kind { Stop, Resume, Cancel, Halt, ResumeSymbol, Status, Numbers, SetNumbers, Names };

    Kind kind;
    std::string symbol;    // Of Halt and ResumeSymbol.
    long out = 0, in = 0;  // Of SetNumbers: the next number of the edge, and the next of the member's engine.
    int desk = 0;          // Which one of the member's desks is meant; 0: none was named.
    long from = 0;         // Of Names, which a process that copies reports asks for: the first number,
    std::string venue;     // and the letter of its venue; empty: the member has one.

    /// In the words that go over the control socket, as `halt ABC`, `numbers 2000 17`, `names 5` or `names 5 B`.
    std::string words() const;

    /// Reads such words. Whether they are a command.
    static bool read(const std::string &words, Command &into);

    /// Whether it is about the numbers of a session, and whether it asks for nothing but an answer.
    bool isOfNumbers() const { return kind == Kind::Numbers || kind == Kind::SetNumbers; }
    bool isQuestion() const { return kind == Kind::Status || kind == Kind::Numbers || kind == Kind::Names; }
};

/// A command that has come, and where its outcome goes.
struct Asked {
    Command command;
    std::string who;  // As the system says of the connection.
    std::time_t at;
    std::chrono::steady_clock::time_point until;  // It is told by then whether it is done.
    std::function<void(bool isDone, const std::string &what)> tell;
};

/// Whether a word is of digits alone, as `numbers` has two of them.
bool isNumber(const std::string &word);

/// How long a command waits for the venue, in seconds.
constexpr int MOST_WAIT = 10;

// In front of the outcome of a command, in the answer to it.
constexpr const char *DONE = "done: ";
constexpr const char *FAILED = "failed: ";

// The longest line of either side, in bytes.
constexpr std::size_t LONGEST_COMMAND = 64, LONGEST_ANSWER = 4096;

}
