#pragma once

// The messages that a stream is to have and hasn't got yet, in their order: what stream.h holds.

#include <chrono>
#include <cstddef>
#include <string>
#include <utility>
#include <vector>

#include "chain.h"

namespace feed {

using Clock = std::chrono::steady_clock;

/// A message that a stream is to have, once the stream of events has this event. Of an event also the hash up to it.
struct Message {
    long event;
    const std::string *subject;
    std::string text;
    Clock::time_point since;
    Chain chain;
};

/// A line of messages. Places are used again with the memory that their texts have taken, so that a message asks for
/// none; where the line is empty, and was long, all of it is given back.
class Window {
public:
    bool empty() const { return !size_; }
    std::size_t size() const { return size_; }

    /// The message of this place, from 0 on.
    const Message &operator[](std::size_t at) const { return places_[(first_ + at) % places_.size()]; }
    const Message &front() const { return places_[first_]; }

    /// A place behind the last one. It has what another message had, and is to be filled.
    Message &add() {
        if (size_ == places_.size()) grow();
        return places_[(first_ + size_++) % places_.size()];
    }

    /// Takes the first message away, and swaps its text with this one.
    void drop(std::string &text) {
        std::swap(text, places_[first_].text);
        first_ = (first_ + 1) % places_.size();
        if (!--size_) shrink();
    }

    void clear() {
        size_ = 0;
        shrink();
    }

private:
    static constexpr std::size_t FIRST = 64, LONG = 4096;

    void grow() {
        std::vector<Message> more(places_.empty() ? FIRST : 2 * places_.size());
        for (std::size_t at = 0; at < size_; at++) more[at] = std::move(places_[(first_ + at) % places_.size()]);
        places_ = std::move(more);
        first_ = 0;
    }

    void shrink() {
        first_ = 0;
        if (places_.size() > LONG) places_ = {};
    }

    std::vector<Message> places_;
    std::size_t first_ = 0, size_ = 0;
};

}
