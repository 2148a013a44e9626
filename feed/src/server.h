#pragma once

// The connection to the NATS servers: a thin layer over libnats, with exceptions in place of codes. stream.h publishes
// through it.

#include <nats/nats.h>

#include <atomic>
#include <functional>
#include <memory>
#include <stdexcept>
#include <string>
#include <vector>

#include "descriptor.h"
#include "settings.h"

namespace feed {

/// No server answers, or none does what it is asked for.
class Unanswered : public std::runtime_error {
    using std::runtime_error::runtime_error;
};

/// What a stream is to be. One that is claimed takes what comes to its subject with one word more: that of who claimed
/// it last.
struct StreamSettings {
    std::string name;
    std::vector<std::string> subjects;
    long seconds, bytes, ofEachSubject;  // 0: no bound.
    int replicas;
    bool isClaimed;
};

/// What the servers say of a stream: the number of its last message, the name of the server that leads it, the first
/// subject that it takes, whether a feed has claimed it, and whether its limits or subjects are others than those of
/// its settings.
struct Place {
    long end;
    std::string leader, subject;
    bool isClaimed, isOther;
};

/// A message that a stream has: its text, and the hash that its feed gave it; empty: none.
struct Kept {
    std::string text, hash;
};

/// The address in a URL, as HOST:PORT.
std::string addressOf(const std::string &url);

/// A connection to one of several servers, which goes to another one where that is lost.
class Server {
public:
    /// What the servers say of a message that asked for an answer by this word; nothing where nobody is there to
    /// answer.
    using Told = std::function<void(const std::string &word, const std::string &answer)>;

    /// Connects, or is Unanswered. So many of the first servers are asked last. `told` is called by a thread of its
    /// own.
    Server(const Access &access, std::size_t passedOver, Told told);
    ~Server();
    Server(const Server &) = delete;
    Server &operator=(const Server &) = delete;

    bool isConnected() const;

    /// Readable once something was told. Who reads it waits for more.
    int fd() const { return told_.get(); }
    void read() const;

    /// Whether the connection was lost, and is there again, since this was asked last.
    bool wasAway() { return wasAway_.exchange(false); }

    /// Where a stream is. It is made where it is missing, and `made` hears of that; one that is there stays as it is.
    /// One of another version is a runtime_error.
    Place placeOf(const StreamSettings &stream, const std::function<void()> &made);

    /// Lets a stream have the limits of its settings, and take these subjects alone: what others publish to one that it
    /// took before comes to nobody from now on. The servers keep what they are told last, whoever tells it.
    void change(const StreamSettings &stream, const std::vector<std::string> &subjects);

    /// Whether this is its address, as HOST:PORT.
    bool isAt(const std::string &address) const;

    /// A message of a stream; false where the stream hasn't got it any more.
    bool get(const std::string &stream, long number, Kept &it);

    /// The newest message of a subject; false where the stream has none.
    bool newest(const std::string &stream, const std::string &subject, Kept &it);

    /// Publishes a message that is to be this one of its stream, and is refused otherwise. A hash goes with it where
    /// there is one, and a word asks for an answer.
    void publish(const std::string &subject, const std::string &text, const std::string &hash, long number,
                 const std::string &word);

private:
    static bool isThere(natsStatus status, jsErrCode code, natsMsg *message, Kept &it);
    static void onReconnect(natsConnection *, void *self);
    static void onAnswer(natsConnection *, natsSubscription *, natsMsg *message, void *self);

    template <class It, void (*End)(It *)>
    struct Ends {
        void operator()(It *it) const { End(it); }
    };
    template <class It, void (*End)(It *)>
    using Owned = std::unique_ptr<It, Ends<It, End>>;

    const Told on_;
    std::atomic<bool> wasAway_{false};
    edge::Descriptor told_;
    std::string inbox_;
    Owned<natsConnection, natsConnection_Destroy> connection_;
    Owned<natsSubscription, natsSubscription_Destroy> answers_;
    Owned<jsCtx, jsCtx_Destroy> streams_;
};

}
