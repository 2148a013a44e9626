#include "connection.h"

#include <poll.h>
#include <sys/socket.h>

#include <algorithm>
#include <cerrno>

namespace edge {

namespace {
constexpr std::size_t DONE = 1 << 16;  // So much that was written is taken out of the buffer at once.
}

bool Connection::read() {
    const auto look = in_.look([this](char *piece, std::size_t size) { return ::recv(socket_.get(), piece, size, 0); });
    return look == Inbox::Look::Some || look == Inbox::Look::None;
}

bool Connection::isReadable() const {
    pollfd it{socket_.get(), POLLIN, 0};
    return ::poll(&it, 1, 0) > 0;
}

bool Connection::next(std::string &message) {
    const Sight &sight = framer_.look(in_.data(), in_.size());
    if (sight.passed) passedOver_.add(in_.data(), sight.passed);
    in_.take(sight.passed);
    if (sight.kind == Framer::None) return false;
    message.assign(in_.data(), sight.size);
    in_.take(sight.size);
    return true;
}

bool Connection::send(const std::string &message) {
    if (isEnding_) return false;
    out_ += writing_(message);
    if (isResending_) most_ = std::max(most_, unsent() + base_);
    return true;
}

bool Connection::isOverfull() const {
    return unsent() > most_;
}

bool Connection::flush() {
    while (at_ < released_) {
        const ssize_t done = ::send(socket_.get(), out_.data() + at_, released_ - at_, MSG_NOSIGNAL);
        if (done < 0 && errno == EINTR) continue;
        if (done < 0 && errno == EAGAIN) break;
        if (done < 0) return false;
        at_ += static_cast<std::size_t>(done);
    }
    if (at_ == out_.size()) {
        out_.clear();
        at_ = released_ = 0;
        most_ = base_;
    } else if (at_ >= DONE) {
        out_.erase(0, at_);
        released_ -= at_;
        at_ = 0;
    }
    return true;
}

}
