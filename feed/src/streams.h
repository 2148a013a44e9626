#pragma once

// All streams of a venue, and what of an event goes into which: between the events of feed.h and stream.h.

#include <map>
#include <memory>
#include <string>
#include <vector>

#include "books.h"
#include "settings.h"
#include "stream.h"
#include "trades.h"

namespace feed {

/// The streams of events, trades, members and books. An event is put into those that it concerns.
class Streams {
public:
    explicit Streams(const Settings &settings);

    const Stream &events() const { return *all_.front(); }

    /// Begins with the journal's front again.
    void reset();

    /// Whether there is room for more events, and the mark is known that they are compared with.
    bool hasRoom() const;
    bool isMarkLearnt() const { return isMarkLearnt_; }

    /// Takes the next event, a line of venue-events. Where the mark is of another journal it Differs.
    void put(const std::string &line, Clock::time_point now);

    /// Puts the books that have changed and the mark, unless those of before are still held.
    void putBooks(Clock::time_point now);

    /// Asks where the streams end: of all, or of those that have something at hand, and of the events.
    void learn(Server &server, Clock::time_point now, bool all);

    /// Whether one of them has lost its end: while that is so nothing is published, and it is asked for.
    bool areLost() const;

    /// Whether all events were put that their stream has, or no more can be held, and a stream lacks something that is
    /// at hand and may go, and stands still for this time.
    bool areDue(Clock::time_point now, std::chrono::milliseconds still) const;

    /// Whether no more can be held, and nothing of that may go: the events that their stream has aren't all put, and
    /// compared with it.
    bool areStuck() const;

    /// Lets all go but the events, and takes no more than these until all are compared that their stream has. Then it
    /// is Lost: the journal is to be read anew, and what is made of these events may go whenever it is at hand.
    void lookAhead();

    /// Whether all that was put stands in the stream of events, and that has no more.
    bool areEventsThere() const { return !events().size() && events().isRead(); }

    /// Whether the stream of events has all that was put, and the mark or the newest book of a symbol isn't that of
    /// these events.
    bool areBooksOld(Server &server) const;

    /// Whether a stream had other limits than those of the settings when it was asked last.
    bool areOther() const;

    /// Compares the event that was put last, where the journal ends before the stream does.
    void compareShort(Server &server);

    /// From now on no other feed can publish events, and all have the limits of the settings.
    void claim(Server &server);

    /// Asks whether another feed has claimed the events behind the last claim.
    bool isClaimLost(Server &server);

    /// From now on it publishes.
    void begin(Clock::time_point now);

    /// Whether the streams end where they did, as far as nothing is under way.
    bool areAsTheyWere(Server &server);

    /// Whether anything is under way.
    bool areUnderWay() const;

    /// Lets go what was acknowledged: each event goes to `told`. What is wrong, in words.
    template <class Told>
    std::string settle(Clock::time_point now, Told told) {
        std::string fault;
        for (const auto &it : all_) {
            const bool isEvents = it == all_.front();
            const std::string its = it->settle(now, [&](const Message &message) {
                if (isEvents) told(message);
            });
            if (fault.empty()) fault = its;
        }
        return fault;
    }

    /// Publishes what may go.
    void publish(Server &server);

    /// Whether nobody has answered of a stream.
    bool areSilent() const;

    /// What a server says of a message that asked by this word. Of any thread.
    void hear(const std::string &word, const std::string &answer);

private:
    Stream *add(const std::string &part, const std::vector<std::string> &ends, Stream::Kind kind);
    const std::string &subject(const std::string &end) const { return subjects_.at(end); }
    void learnMark(Server &server);
    bool areFull() const;

    /// The last event of which other streams may have messages: it stands in the stream of events, and was compared.
    long sure() const;

    const Settings &settings_;
    std::map<std::string, std::string> subjects_;  // By their ends, behind venue.NAME.
    std::vector<std::unique_ptr<Stream>> all_;     // That of the events is the first.
    Stream *trades_, *books_;
    std::vector<Stream *> members_;
    Trades trade_;
    Books book_;
    bool isMarkLearnt_ = false, looksAhead_ = false;
    std::string lacking_;     // The stream for which it looks ahead.
    long sure_ = 0;           // The events up to this one were compared.
    long learnt_ = 0;         // The event of the mark that the servers had,
    std::string learntHash_;  // and the hash of all events up to that.
    long marked_ = 0;         // The event of the mark that was put last.
};

}
