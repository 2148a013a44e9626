#include "feed.h"

#include <poll.h>

#include <algorithm>

#include "lines.h"

namespace feed {

namespace {

using std::chrono::milliseconds;

constexpr milliseconds CONNECT(500), LOOK(200), TURN(50), QUIET(1000), ASKED_AGAIN(500);
constexpr milliseconds PIECE(2);             // Between two pieces that are published.
constexpr std::chrono::seconds AGAIN(3);     // Between two looks of who publishes at where the streams end.
constexpr std::chrono::seconds LONGEST(30);  // Between two starts of venue-events.
constexpr std::size_t MOST_SAID = 16;        // Lines of an outage.
constexpr int GIVEN_UP = 2;                  // Questions or publishes that a server doesn't answer until it is left.

}

Feed::Feed(const Settings &settings, Figures &figures, int ends)
    : settings_(settings), figures_(figures), ends_(ends), streams_(settings) {}

void Feed::run() {
    connect();
    for (milliseconds behind(1000); !isOver_;) {
        const auto began = Clock::now();
        try {
            readJournal();
        } catch (const Lost &why) {
            edge::say("", std::string(why.what()) + ": reads the journal anew");
        } catch (const Differs &) {
            throw;
        } catch (const std::runtime_error &why) {
            if (Clock::now() - began > LONGEST) behind = milliseconds(1000);
            edge::say("", std::string(why.what()) + ": reads the journal anew in " +
                              std::to_string(behind.count() / 1000) + " s");
            pause(behind);
            behind = std::min<milliseconds>(2 * behind, LONGEST);
        }
        figures_.restarts++;
    }
}

/// Whether it is to end, at once or within this time.
bool Feed::pause(milliseconds time) {
    pollfd it{ends_, POLLIN, 0};
    if (::poll(&it, 1, static_cast<int>(time.count())) > 0) isOver_ = true;
    return isOver_;
}

void Feed::connect() {
    while (!server_ && !pause(CONNECT * !said_.empty())) {
        try {
            server_.reset(new Server(
                settings_.access, passed_,
                [this](const std::string &word, const std::string &answer) { streams_.hear(word, answer); }));
        } catch (const Unanswered &why) {
            sayOnce(std::string("waits for a server: ") + why.what());
        }
    }
}

/// Says what keeps it from publishing, once until a server has answered.
void Feed::sayOnce(const std::string &what) {
    if (said_.size() < MOST_SAID && said_.insert(what).second) edge::say("", what);
}

void Feed::readJournal() {
    streams_.reset();
    beginToWait(milliseconds(0));
    readAt_ = Clock::now();
    journal_.reset(new edge::Replay(settings_.venue, "", 0));
    while (!isOver_) turn();
    journal_.reset();
}

/// Publishes nothing any more, and asks where the streams end behind this time.
void Feed::beginToWait(milliseconds behind) {
    isPublishing_ = isTold_ = false;
    mustLearnAll_ = true;
    end_ = 0;
    looked_ = -1;
    lookAt_ = Clock::now() + behind;
}

void Feed::turn() {
    const auto now = Clock::now();
    try {
        read(now);
        if (isPublishing_) publish(now);
        if (isPublishing_) lookAgain(now);
        else if (now >= lookAt_) wait(now);
    } catch (const Unanswered &why) {
        sayOnce(std::string("waits for a server: ") + why.what());
        beginToWait(ASKED_AGAIN);
        if (server_->isConnected()) countUnanswered();
    }
    if (isOver_) return;  // While no server could be had.
    show();
    rest();
}

/// Looks whether what the streams have had is still there: at each connection that is made again, and every few seconds
/// where nothing is under way. Power that goes at two servers takes what they haven't synced.
void Feed::lookAgain(Clock::time_point now) {
    const bool wasAway = server_->wasAway();
    if (!wasAway && (now < againAt_ || streams_.areUnderWay())) return;
    againAt_ = now + AGAIN;
    if (wasAway) sayOnce("is connected again, and looks where the streams end");
    if ((wasAway && streams_.areUnderWay()) || !streams_.areAsTheyWere(*server_)) beginToWait(milliseconds(0));
    else said_.clear();
}

/// Goes to the next server where this one is there, and reaches too few others to answer.
void Feed::countUnanswered() {
    if (++unanswered_ < GIVEN_UP) return;
    sayOnce("leaves a server that answers nothing");
    server_.reset();
    passed_++;
    unanswered_ = 0;
    connect();
}

/// Goes to the server that leads the stream of events, where that is one of the settings, once in front of a beginning:
/// its messages have one way less.
bool Feed::goToLeader() {
    const std::string &leader = streams_.events().leader();
    const std::vector<std::string> &servers = settings_.access.servers;
    const auto found =
        std::find_if(servers.begin(), servers.end(), [&](const std::string &url) { return addressOf(url) == leader; });
    if (hasMoved_ || found == servers.end() || server_->isAt(leader)) return false;
    hasMoved_ = true;
    passed_ = static_cast<std::size_t>(found - servers.begin());
    server_.reset();
    connect();
    return true;
}

/// Takes the events that have come, as far as there is room.
void Feed::read(Clock::time_point now) {
    if (!streams_.hasRoom()) return;
    const auto none = [](const char *, std::size_t) {};
    const bool hasEnded = journal_->read(none, [&](const char *line, std::size_t size) {
        line_.assign(line, size);
        streams_.put(line_, now);
        readAt_ = now;
    });
    if (hasEnded) throw std::runtime_error("venue-events has ended");
}

/// Looks where the streams end, and begins to publish once that is due.
void Feed::wait(Clock::time_point now) {
    lookAt_ = now + LOOK;
    const bool isFirst = !streams_.isMarkLearnt();
    streams_.learn(*server_, now, mustLearnAll_);
    if (isFirst) readAt_ = Clock::now();  // Nothing was read before.
    noteClaim();
    mustLearnAll_ = false;
    if (!streams_.events().size()) unanswered_ = 0;
    said_.clear();
    if (streams_.hasRoom() && now - readAt_ >= QUIET) streams_.compareShort(*server_);
    sayGrowth();
    if (streams_.areStuck()) streams_.lookAhead();
    if (!isDue(now)) return;
    streams_.learn(*server_, now, true);
    wantsLimits_ = false;  // Another feed may have set them meanwhile.
    if (!isDue(now) || goToLeader()) return;
    hasClaim_ = false;  // From now on that of before is lost by this one.
    streams_.claim(*server_);
    streams_.learn(*server_, now, true);
    if (isDue(now) && !streams_.events().hasLostClaim()) begin(now);
}

void Feed::begin(Clock::time_point now) {
    streams_.begin(now);
    isPublishing_ = hasBegun_ = hasClaim_ = true;
    isFilling_ = !streams_.events().isRead();
    wantsLimits_ = false;
    edge::say("", isFilling_ ? "fills what streams lack up to event " + std::to_string(streams_.events().floor())
                             : "publishes behind event " + std::to_string(streams_.events().before()));
}

/// Whether a stream has lacked something for long enough. Books are looked at once nothing has come for a while, and
/// the limits of the streams too, where it hasn't begun yet: feeds of other settings would take turns for ever.
bool Feed::isDue(Clock::time_point now) {
    if (streams_.areLost()) return false;
    if (streams_.areDue(now, settings_.takeOver)) return true;
    if (now - readAt_ < settings_.takeOver + settings_.bookInterval || looked_ == streams_.events().before())
        return false;
    wantsLimits_ = wantsLimits_ || (!hasBegun_ && streams_.areOther());
    if ((wantsLimits_ && streams_.areEventsThere()) || streams_.areBooksOld(*server_)) return true;
    looked_ = streams_.events().before();
    return false;
}

/// Says that the stream of events grows by another feed, once while it waits.
void Feed::sayGrowth() {
    const long before = end_;
    end_ = streams_.events().floor();
    if (isTold_ || !before || end_ <= before) return;
    isTold_ = true;
    edge::say("", "waits behind event " + std::to_string(end_) + ": another feed publishes");
}

void Feed::publish(Clock::time_point now) {
    if (isFilling_ && (streams_.events().isRead() || streams_.areStuck())) return beginToWait(milliseconds(0));
    if (now >= booksAt_) {
        booksAt_ = now + settings_.bookInterval;
        streams_.putBooks(now);
    }
    const std::string fault = streams_.settle(now, [&](const Message &it) {
        figures_.note(now - it.since);
        unanswered_ = 0;
    });
    if (fault.empty()) publishPieces(now);
    else giveUp(fault);
}

/// Asks where the streams end, for this reason. Where nobody answers the server at hand may be one that reaches no
/// other; or another feed has claimed the events, and this one waits behind that.
void Feed::giveUp(const std::string &fault) {
    const bool isSilent = streams_.areSilent();
    hasMoved_ = false;
    beginToWait(LOOK);
    edge::say("", fault);
    if (isSilent && isClaimLost()) return noteClaim();
    figures_.refusals++;
    if (isSilent) countUnanswered();
}

/// Whether the servers say that another feed has claimed the events.
bool Feed::isClaimLost() {
    try {
        return streams_.isClaimLost(*server_);
    } catch (const Unanswered &) {
        return false;
    }
}

/// Says once of each of its claims that it is lost.
void Feed::noteClaim() {
    if (!hasClaim_ || !streams_.events().isOfAnother()) return;
    hasClaim_ = false;
    figures_.claimsLost++;
    edge::say("", "the stream " + streams_.events().name() + " was claimed by another feed");
}

/// Publishes what came meanwhile in one piece, as the servers take it with less work than one message behind the other.
void Feed::publishPieces(Clock::time_point now) {
    if (now < pieceAt_) return;
    pieceAt_ = now + PIECE;
    streams_.publish(*server_);
}

void Feed::show() {
    const Stream &events = streams_.events();
    figures_.isConnected = server_->isConnected();
    figures_.isPublishing = isPublishing_;
    figures_.read = events.next() - 1;
    figures_.published = events.before();
    figures_.oldest = events.size() ? events.front().since.time_since_epoch().count() : 0;
}

/// Sleeps until something has come, or is due.
void Feed::rest() {
    pollfd all[] = {
        {ends_, POLLIN, 0}, {server_->fd(), POLLIN, 0}, {streams_.hasRoom() ? journal_->fd() : -1, POLLIN, 0}};
    ::poll(all, 3, static_cast<int>((isPublishing_ && streams_.areUnderWay() ? PIECE : TURN).count()));
    isOver_ = all[0].revents;
    server_->read();
    edge::sayCounts();
}

}
