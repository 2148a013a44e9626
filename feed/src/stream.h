#pragma once

// A stream at the servers, and what it is to have next: between what the events make (streams.h) and the servers. All
// that keeps messages from being doubled, lost or out of order is here.

#include <chrono>
#include <cstddef>
#include <mutex>
#include <stdexcept>
#include <string>

#include "server.h"
#include "window.h"

namespace feed {

/// The stream has lost its end: the journal has to be read from its front again. In words.
class Lost : public std::runtime_error {
    using std::runtime_error::runtime_error;
};

/// The stream has another journal's messages, in words.
class Differs : public std::runtime_error {
    using std::runtime_error::runtime_error;
};

/// A stream whose message n is the n-th that was put, from the journal's front on. The one of the events is claimed by
/// its feed, and each of its messages has the hash of all up to it. The messages of a Newest one go on wherever it
/// ends.
class Stream {
public:
    enum class Kind { Events, Counted, Newest };

    Stream(StreamSettings settings, Kind kind, std::size_t index);

    const std::string &name() const { return settings_.name; }

    /// The first of its subjects, which all have that are of no symbol.
    const std::string &subject() const { return settings_.subjects.front(); }

    /// The name of the server that led it when it was asked last.
    const std::string &leader() const { return place_.leader; }

    /// The hash of all that was put.
    std::string hash() const { return chain_.text(); }

    /// The number of the next message that is put.
    long next() const { return next_; }

    /// How many messages it holds, which the stream hasn't got.
    std::size_t size() const { return window_.size(); }
    const Message &front() const { return window_.front(); }

    /// The number of the last message that it doesn't hold: the stream has it, as far as it is known.
    long before() const { return next_ - 1 - static_cast<long>(window_.size()); }

    /// Where the stream ended when it was asked last, and whether all of that was put.
    long floor() const { return floor_; }
    bool isRead() const { return next_ > floor_; }

    /// Whether it ended too early when it was asked last: it goes on from there once the journal is read anew.
    bool isLost() const { return isLost_; }

    /// Begins with the journal's front again.
    void reset();

    /// Takes the next message, of this event and subject. One that the stream has already is left out.
    void put(long event, const std::string &subject, const std::string &text, Clock::time_point since);

    /// Asks where the stream ends, and lets go what it has. What isn't put yet, and is there, will be left out. Its
    /// last message is compared with the one that was put.
    void learn(Server &server, Clock::time_point now);

    /// Whether it has a message of these events that the stream has lacked for this time, in which it stood still.
    bool isDue(long events, Clock::time_point now, std::chrono::milliseconds still) const;

    /// Compares the last message that was put with the stream's, where that has more than was put.
    void compareShort(Server &server);

    /// Whether its limits or subjects were others than those of the settings when it was asked last.
    bool isOther() const { return place_.isOther; }

    /// From now on it has the limits of the settings, and no other feed's events come to it. Where it ended before has
    /// to be learnt anew.
    void claim(Server &server);

    /// Whether its claim didn't hold any more when it was asked last, and whether that was by another feed: a stream
    /// that was lost is made anew, and is nobody's.
    bool hasLostClaim() const { return !claim_.empty() && place_.subject != claim_; }
    bool isOfAnother() const { return hasLostClaim() && place_.isClaimed; }

    /// Asks whether another feed has claimed it.
    void learnClaim(Server &server) { place_ = placeOf(server); }

    /// From now on it publishes, behind where the stream ends.
    void begin(Clock::time_point now);

    /// Whether the stream ends where it did, and is its own, as far as nothing is under way.
    bool isAsItWas(Server &server);

    /// Publishes what it holds of these events.
    void publish(Server &server, long events);

    /// Lets go what was acknowledged, and calls `each` with it. What was refused, or isn't answered, is said in words.
    template <class Each>
    std::string settle(Clock::time_point now, Each each) {
        std::string fault;
        const long heard = heardSo(now, fault);
        while (!window_.empty() && before() < heard) {
            each(window_.front());
            letGo();
        }
        return fault;
    }

    /// Whether what was said last is that nobody answers: another server may know who does.
    bool isSilent() const { return isSilent_; }

    /// What a server says of the message that asked by this word. Of any thread.
    void hear(long epoch, long number, const std::string &answer);

private:
    long heardSo(Clock::time_point now, std::string &fault);
    void letGo();
    void needEnd(Clock::time_point now);
    void compare(Server &server, long number);
    Place placeOf(Server &server) const;
    const std::string &subjectOf(const Message &it) const;

    const StreamSettings settings_;
    const Kind kind_;
    const std::string index_;
    Window window_;  // The last of it is next_ - 1.
    long next_ = 1, sent_ = 0, seen_ = 0;
    long floor_ = 0;                 // Where the stream ended when it was asked last.
    long compared_ = 0, short_ = 0;  // These were compared already.
    long began_ = 0;                 // Behind this it began to publish.
    Place place_{};                  // As it was learnt last.
    std::string claim_;              // Its subject, where it has claimed it.
    std::string last_;               // The text of the message in front of the window.
    Chain lastChain_, chain_;        // Up to that message, and up to the last that was put.
    bool isSilent_ = false;
    bool isLost_ = false;  // The stream ends before that.
    Clock::time_point lostSince_, stillSince_, heardAt_;

    std::mutex mutex_;  // Of what the servers say, all below.
    long epoch_ = 0, acknowledged_ = 0;
    bool isUnheard_ = false;  // The fault is that nobody is there to answer.
    std::string fault_;
};

}
