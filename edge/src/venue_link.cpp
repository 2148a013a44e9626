#include "venue_link.h"

#include <arpa/inet.h>
#include <netinet/in.h>
#include <netinet/tcp.h>
#include <sys/socket.h>

#include <cerrno>
#include <cstdlib>

#include "frame.h"
#include "lines.h"
#include "seconds.h"

namespace edge {

namespace {
constexpr std::size_t LONGEST = 1 << 14;     // Of the bodies of the venue's messages.
constexpr std::size_t USUAL = 256;           // Hardly any message to it has more bytes.
constexpr std::chrono::seconds PATIENCE(5);  // For its answer to the Logon, which needs no disk.
}

VenueLink::VenueLink(const std::string &host, int port, const std::string &member)
    : host_(host), port_(port), member_(member) {}

void VenueLink::connect() {
    end();
    socket_.reset(::socket(AF_INET, SOCK_STREAM | SOCK_NONBLOCK | SOCK_CLOEXEC, 0));
    if (!socket_) {
        fail(notConnected());
        return;
    }
    const int one = 1;
    ::setsockopt(socket_.get(), IPPROTO_TCP, TCP_NODELAY, &one, sizeof one);
    sockaddr_in address{};
    address.sin_family = AF_INET;
    address.sin_port = htons(static_cast<std::uint16_t>(port_));
    ::inet_pton(AF_INET, host_.c_str(), &address.sin_addr);  // It is an address, by the settings.
    const int done = ::connect(socket_.get(), reinterpret_cast<const sockaddr *>(&address), sizeof address);
    if (done && errno != EINPROGRESS) {
        fail(notConnected());
        return;
    }
    state_ = State::Connecting;
}

std::string VenueLink::notConnected() const {
    return "can't connect to its port " + std::to_string(port_) + ": " + reason();
}

std::string VenueLink::waitsFor() const {
    if (state_ != State::LoggingOn || Clock::now() - loggingOnSince_ < PATIENCE) return "";
    return "its port " + std::to_string(port_) + " is held by another client, as a second edge of " + member_ +
           ", or it hangs: no answer to the Logon";
}

bool VenueLink::fail(const std::string &why) {
    why_ = why;
    end();
    return false;
}

void VenueLink::end() {
    socket_.reset();
    in_.clear();
    out_.clear();
    released_ = 0;
    number_ = 0;
    hasMore_ = false;
    state_ = State::Down;
}

bool VenueLink::flush() {
    if (state_ == State::Connecting) {
        int fault = 0;
        socklen_t size = sizeof fault;
        ::getsockopt(socket_.get(), SOL_SOCKET, SO_ERROR, &fault, &size);
        if (fault) {
            errno = fault;
            return fail(notConnected());
        }
        sockaddr_in peer{};
        socklen_t length = sizeof peer;
        if (::getpeername(socket_.get(), reinterpret_cast<sockaddr *>(&peer), &length)) return true;  // It isn't made yet.
        state_ = State::LoggingOn;
        loggingOnSince_ = Clock::now();
        send("A", "98=0\001108=0\001141=Y\1", timeNow());
        release();
    }
    std::size_t at = 0;
    while (at < released_) {
        const ssize_t done = ::send(socket_.get(), out_.data() + at, released_ - at, MSG_NOSIGNAL);
        if (done < 0 && errno == EINTR) continue;
        if (done < 0 && errno == EAGAIN) break;
        if (done < 0) return fail("can't write: " + reason());
        at += static_cast<std::size_t>(done);
    }
    out_.erase(0, at);
    released_ -= at;
    return true;
}

long VenueLink::send(const char *type, const std::string &body, const std::string &time) {
    std::string fields;
    fields.reserve(USUAL);
    fields += "35=";
    fields += type;
    fields += "\00149=";
    fields += member_;
    fields += "\00156=VENUE\00134=";
    fields += std::to_string(++number_);
    fields += "\00152=";
    fields += time;
    fields += '\1';
    fields += body;
    frame(fields, out_);
    return number_;
}

bool VenueLink::take(const Fields &message, const std::function<void(const Fields &)> &told) {
    if (message.byte(35) == '5') return fail("it ended the session: " + shown(message.text(58)));
    if (state_ == State::LoggingOn) {
        if (message.byte(35) != 'A') return fail("it answered the Logon by " + shown(message.bytes()));
        state_ = State::Up;
        return true;
    }
    told(message);
    return true;
}

bool VenueLink::read(const std::function<void(const Fields &)> &told) {
    const auto look = in_.look([this](char *piece, std::size_t size) {
        const ssize_t count = ::recv(socket_.get(), piece, size, 0);
        hasMore_ = count == static_cast<ssize_t>(size);
        return count;
    });
    if (look == Inbox::Look::Failed) return fail("can't read: " + reason());
    if (look == Inbox::Look::End) return fail("it closed the connection");
    for (;;) {
        const VenueFrame frame = venueFrame(in_.data(), in_.size(), LONGEST);
        if (frame.kind == VenueFrame::Kind::None) return true;
        const Fields message(in_.data(), frame);
        if (frame.kind == VenueFrame::Kind::Bad || !message.areVenues() || !message.isFirst(35))
            return fail("what came is no message of the venue");
        in_.take(frame.size);
        if (!take(message, told)) return false;
    }
}

}
