#include "door.h"

#include <arpa/inet.h>
#include <netinet/tcp.h>
#include <poll.h>
#include <quickfix/FixFieldNumbers.h>
#include <sys/socket.h>

#include <cerrno>
#include <thread>
#include <vector>

#include "canonical.h"
#include "guests.h"
#include "lines.h"
#include "listener.h"

namespace edge {

namespace {

constexpr std::chrono::seconds PATIENCE(10);
constexpr std::chrono::milliseconds TURN(200);
constexpr int AT_ONCE = 16;  // Clients that are taken in before the others are looked at again.
constexpr std::size_t PIECE = 4096;
constexpr std::size_t MOST_LOOKED = 1 << 20;  // With each piece all before it are looked at again: that takes time.
constexpr int SILENCE = 30;  // Seconds behind which the system asks whether a client's machine is still there.
// Of what is written to a client: else the system holds megabytes that nobody counts.
constexpr int SYSTEMS_ROOM = 1 << 18;

std::string placeOf(const sockaddr_in &address) {
    char text[INET_ADDRSTRLEN];
    ::inet_ntop(AF_INET, &address.sin_addr, text, sizeof text);
    return std::string(text) + ":" + std::to_string(ntohs(address.sin_port));
}

}

Door::Door(FIX::Application &application, FIX::MessageStoreFactory &stores, const Settings &settings,
           FIX::LogFactory &logs, MemberSession &desk)
    : FIX::Acceptor(application, stores, settings.library, logs),
      settings_(settings),
      desk_(desk),
      who_(settings.member.desk == FIRST_DESK ? "" : settings.member.deskName()),
      framer_(settings.member.limits.messageBytes) {}

void Door::onInitialize(const FIX::SessionSettings &) throw(FIX::RuntimeError) {
    try {
        listener_ = listener(settings_.host, settings_.member.port);
    } catch (const std::runtime_error &why) {
        throw FIX::RuntimeError(why.what());
    }
}

void Door::onStart() {
    while (!isStopped()) {
        try {
            turn();
        } catch (const std::exception &why) {
            say(who_, std::string("the door: ") + why.what());
            std::this_thread::sleep_for(TURN);
        }
    }
}

void Door::onStop() {}

void Door::turn() {
    std::vector<pollfd> all;
    const bool admits = Clock::now() >= admitAt_;
    all.push_back({listener_.get(), static_cast<short>(admits ? POLLIN : 0), 0});
    for (const Guest &it : guests_) all.push_back({it.socket.get(), POLLIN, 0});
    ::poll(all.data(), all.size(), static_cast<int>(TURN.count()));
    std::size_t at = 1;
    for (auto it = guests_.begin(); it != guests_.end(); at++) {
        const bool isOver = (all[at].revents && isDone(*it)) || Clock::now() - it->since > PATIENCE;
        if (isOver && it->socket) say(who_, "a client from " + it->from + " is let go: it didn't log on");
        it = isOver ? guests_.erase(it) : std::next(it);
    }
    for (int count = 0; all[0].revents && count < AT_ONCE && admit(); count++) {}
    sayCounts();
}

/// Takes a client in, or refuses it; false where there is none.
bool Door::admit() {
    sockaddr_in address{};
    socklen_t size = sizeof address;
    Descriptor socket(
        ::accept4(listener_.get(), reinterpret_cast<sockaddr *>(&address), &size, SOCK_NONBLOCK | SOCK_CLOEXEC));
    if (!socket) {
        if (errno == EAGAIN || errno == ECONNABORTED || errno == EINTR) return false;
        say(who_, "no client can be taken in: " + reason());
        admitAt_ = Clock::now() + TURN;
        return false;
    }
    const std::string from = placeOf(address);
    if (!makeRoom(address.sin_addr.s_addr, from)) return true;
    const auto set = [&socket](int level, int name, int value) {
        ::setsockopt(socket.get(), level, name, &value, sizeof value);
    };
    set(IPPROTO_TCP, TCP_NODELAY, 1);
    set(SOL_SOCKET, SO_SNDBUF, SYSTEMS_ROOM);
    set(SOL_SOCKET, SO_KEEPALIVE, 1);  // A session without heartbeats ends with the client's machine, too.
    set(IPPROTO_TCP, TCP_KEEPIDLE, SILENCE);
    set(IPPROTO_TCP, TCP_KEEPINTVL, SILENCE / 3);
    guests_.push_back(Guest{std::move(socket), address.sin_addr.s_addr, "", from, Clock::now()});
    return true;
}

/// Whether one more client from this address finds room, or is let go.
bool Door::makeRoom(std::uint32_t address, const std::string &from) {
    std::vector<Waiting> waiting;
    waiting.reserve(guests_.size());
    for (const Guest &it : guests_) waiting.push_back({it.address, it.since});
    const Guests room(waiting, address, Clock::now());
    if (room.way() == Guests::Way::Free) return true;
    const auto who = std::next(guests_.begin(), static_cast<long>(room.place()));
    const bool isRefused = room.way() == Guests::Way::Refused;
    say(who_, "a client from " + (isRefused ? from : who->from) + " is let go: too many wait to log on", 1);
    if (!isRefused) guests_.erase(who);
    return !isRefused;
}

/// Reads what a guest says: whether it goes, to its member or away. One that goes to its member leaves no socket here.
bool Door::isDone(Guest &guest) {
    char piece[PIECE];
    const ssize_t count = ::recv(guest.socket.get(), piece, sizeof piece, 0);
    if (count < 0 && (errno == EAGAIN || errno == EINTR)) return false;
    if (count <= 0) return true;
    guest.bytes.append(piece, static_cast<std::size_t>(count));
    try {
        return greet(guest);
    } catch (const BadBytes &why) {
        say(who_, "a client from " + guest.from + " is let go: " + why.what());
        guest.socket.reset();
        return true;
    }
}

bool Door::greet(Guest &guest) {
    guest.looked += guest.bytes.size();
    if (guest.looked > MOST_LOOKED) throw BadBytes("its first message comes in too many pieces");
    const Sight &sight = framer_.look(guest.bytes.data(), guest.bytes.size());
    if (sight.passed) throw BadBytes("what came is no message of FIX.4.4, or too long a one");
    if (sight.kind == Framer::None) return false;
    const std::string first = guest.bytes.substr(0, sight.size);
    const Judged logon(first, framer_);
    if (!logon.isGood()) throw BadBytes("its first message can't be read: " + logon.why());
    if (isOfMember(logon)) handOver(guest, logon);
    else
        say(who_, "a client from " + guest.from +
                      " is let go, whose first message is no Logon of a member: " + shown(masked(first)));
    guest.socket.reset();
    return true;
}

bool Door::isOfMember(const Judged &logon) const {
    const FIX::SessionID &session = desk_.settings().session;
    const bool isMembers = logon.is(FIX::FIELD::SenderCompID, session.getTargetCompID().getValue()) &&
                           logon.is(FIX::FIELD::TargetCompID, session.getSenderCompID().getValue());
    return isMembers && logon.is(FIX::FIELD::MsgType, "A");
}

void Door::handOver(Guest &guest, const Judged &logon) {
    if (isLookedAt(guest, logon)) desk_.hand(std::move(guest.socket), guest.bytes, guest.from);
}

/// Whether the password is the member's. Who hasn't got it reaches neither the session nor its store, and is told
/// nothing: a Logout would take a number of the session, or shift those of its engine.
bool Door::isLookedAt(const Guest &guest, const Judged &logon) {
    const std::string front = "a Logon from " + guest.from + " is refused: ";
    const auto now = Clock::now();
    if (!delays_.isOver(guest.address, now)) {
        say(who_, front + "it comes too soon behind a wrong password", 1);
        return false;
    }
    if (desk_.knows(logon.text(553), logon.text(554))) {
        delays_.succeeded(guest.address);
        return true;
    }
    const auto pause = delays_.failed(guest.address, now);
    say(who_, front + faultOf(logon.text(553), logon.text(554)) + "; the next one from there is looked at in " +
                  std::to_string(pause.count()) + " ms");
    return false;
}

}
