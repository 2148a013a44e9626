#pragma once

// The feed at work: events of a journal in, messages of streams out, by one thread.

#include <memory>
#include <set>
#include <string>

#include "descriptor.h"
#include "figures.h"
#include "replay.h"
#include "server.h"
#include "settings.h"
#include "streams.h"

namespace feed {

/// A feed, which goes on until a signal comes.
class Feed {
public:
    /// What ends it can be read from this descriptor.
    Feed(const Settings &settings, Figures &figures, int ends);

    /// Goes on until it is to end. A stream of another journal Differs.
    void run();

private:
    void connect();
    void readJournal();
    void turn();
    void read(Clock::time_point now);
    void wait(Clock::time_point now);
    void publish(Clock::time_point now);
    void publishPieces(Clock::time_point now);
    void lookAgain(Clock::time_point now);
    void giveUp(const std::string &fault);
    bool isClaimLost();
    void noteClaim();
    void begin(Clock::time_point now);
    void beginToWait(std::chrono::milliseconds behind);
    void sayOnce(const std::string &what);
    void countUnanswered();
    bool goToLeader();
    void sayGrowth();
    bool isDue(Clock::time_point now);
    void rest();
    void show();
    bool pause(std::chrono::milliseconds time);

    const Settings &settings_;
    Figures &figures_;
    const int ends_;
    bool isOver_ = false, isPublishing_ = false, mustLearnAll_ = true, isTold_ = false, hasMoved_ = false;
    bool isFilling_ = false;  // It publishes no events, as those aren't read yet that the servers have.
    bool hasClaim_ = false;   // It has begun, and no other feed has claimed the events since, as far as it knows.
    bool hasBegun_ = false, wantsLimits_ = false;  // It has begun once; it is to begin, as a stream has other limits.
    Streams streams_;
    std::unique_ptr<Server> server_;
    std::unique_ptr<edge::Replay> journal_;
    std::size_t passed_ = 0;  // So many servers are passed over at first.
    int unanswered_ = 0;      // So often the server at hand hasn't answered, since it last did.
    long end_ = 0;            // Of the stream of events, as it was learnt last; 0: it wasn't.
    long looked_ = -1;        // Behind this event the books were looked at, and are those of it.
    Clock::time_point readAt_, lookAt_, booksAt_, againAt_, pieceAt_;
    std::set<std::string> said_;  // Since a server has answered.
    std::string line_;
};

}
