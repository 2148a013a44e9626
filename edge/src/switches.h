#pragma once

// What an operator has switched off: the whole of a member, or a symbol. operators.h switches, and trader.h looks here
// before it takes a member's order.

#include <map>
#include <mutex>
#include <string>
#include <vector>

#include "record.h"

namespace edge {

/// A member that is stopped, and symbols that are halted, as they stand in the member's record. What is changed is
/// committed with its turn. What fails is a DatabaseFault.
class Switches {
public:
    /// Of these symbols: what the record has of others isn't looked at.
    Switches(Record &record, const std::vector<std::string> &symbols);

    /// The record has been opened.
    void attach();

    /// By whom the member is stopped or lets trade again, or the symbol is. It may be so already.
    void stop(const std::string &who) { put("", who); }
    void resume() { drop(""); }
    void halt(const std::string &symbol, const std::string &who) { put(symbol, who); }
    void resume(const std::string &symbol) { drop(symbol); }

    // For the member's own thread.
    bool isStopped() const { return on_.count(""); }
    bool isHalted(const std::string &symbol) const { return on_.count(symbol); }

    /// Whether there is such a symbol.
    bool knows(const std::string &symbol) const;

    /// What is switched off, since when and by whom, in words; nothing where nothing is. Of any thread.
    std::string words() const;

    /// The same for who looks from outside, of any thread: whether the member is stopped, and each symbol halted.
    bool showsStopped() const;
    std::map<std::string, bool> shownHalted() const;

private:
    void put(const std::string &what, const std::string &who);
    void drop(const std::string &what);

    const std::vector<std::string> symbols_;
    Record &record_;
    mutable std::mutex mutex_;               // Of what others look at, when it is changed.
    std::map<std::string, std::string> on_;  // Symbols, or "" for the member, with since when and by whom.
    Statement all_, put_, drop_;
};

}
