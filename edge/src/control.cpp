#include "control.h"

#include <poll.h>
#include <sys/eventfd.h>
#include <sys/socket.h>

#include <algorithm>
#include <cerrno>
#include <cstdint>
#include <ctime>

#include "lines.h"
#include "status.h"
#include "users.h"

namespace edge {

namespace {

constexpr std::size_t MOST_CALLERS = 8;  // Callers at a time; others wait.
constexpr std::chrono::seconds PATIENCE(2), AGAIN(1);
constexpr int TURN = 500;  // Milliseconds.

/// Who has called, as `root (uid 0)`.
std::string callerOf(int socket) {
    ucred who{};
    socklen_t size = sizeof who;
    if (::getsockopt(socket, SOL_SOCKET, SO_PEERCRED, &who, &size)) return "unknown";
    return userOf(who.uid);
}

/// Whether a caller has gone.
bool hasLeft(int socket) {
    pollfd it{socket, POLLRDHUP, 0};
    return ::poll(&it, 1, 0) > 0 && it.revents;
}

void send(int socket, const std::string &line) {
    const std::string bytes = line.substr(0, LONGEST_ANSWER - 1) + "\n";
    if (::send(socket, bytes.data(), bytes.size(), MSG_NOSIGNAL | MSG_DONTWAIT) < 0) return;  // It has gone.
}

}

Control::Control(const Settings &settings, Member &member, Callers callers)
    : settings_(settings), member_(member), callersAre_(callers), bell_(::eventfd(0, EFD_NONBLOCK | EFD_CLOEXEC)) {
    listen();
    thread_ = std::thread([this] { run(); });
}

Control::~Control() {
    {
        const std::lock_guard<std::mutex> lock(mutex_);
        isStopping_ = true;
    }
    const std::uint64_t one = 1;
    if (::write(bell_.get(), &one, sizeof one) < 0) say("", "who waits for a command isn't woken: " + reason());
    thread_.join();
    if (listener_) endControl(settings_.folder, settings_.member.name(), callersAre_);
}

/// A disk may have no room for a socket: its member is served all the same, and it is tried again.
void Control::listen() {
    listenAt_ = Clock::now() + AGAIN;
    try {
        listener_ = controlListener(settings_.folder, settings_.member.name(), callersAre_);
        saidOfListener_.clear();
    } catch (const std::runtime_error &why) {
        if (saidOfListener_ != why.what())
            say("", (callersAre_ == Callers::Operators ? "no command of an operator can be taken: "
                                                       : "no session of copies can ask for names: ") +
                        std::string(why.what()));
        saidOfListener_ = why.what();
    }
}

void Control::run() {
    for (bool isOver = false; !isOver;) {
        {
            const std::lock_guard<std::mutex> lock(mutex_);
            isOver = isStopping_;
        }
        try {
            if (isOver) answer();
            else turn();
        } catch (const std::exception &why) {
            say("", std::string("the door for operators: ") + why.what());
            ::poll(nullptr, 0, TURN);
        }
    }
}

void Control::turn() {
    if (!listener_ && Clock::now() >= listenAt_) listen();
    std::vector<pollfd> all{{bell_.get(), POLLIN, 0},
                            {callers_.size() < MOST_CALLERS ? listener_.get() : -1, POLLIN, 0}};
    for (const Caller &it : callers_)
        all.push_back({it.socket.get(), static_cast<short>(it.isAsking ? POLLRDHUP : POLLIN), 0});
    ::poll(all.data(), all.size(), TURN);
    std::uint64_t rings;
    if (all[0].revents && ::read(bell_.get(), &rings, sizeof rings) < 0) return;  // It has been read already.
    std::size_t at = 2;
    for (auto it = callers_.begin(); it != callers_.end(); at++) {
        const bool isSilent = !it->isAsking && Clock::now() - it->since >= PATIENCE;
        const bool hasCome = all[at].revents || isSilent;  // This process may have stood still, and has to look first.
        const bool isOver = (hasCome && (it->isAsking || hear(*it))) || (isSilent && !it->isAsking);
        it = isOver ? callers_.erase(it) : std::next(it);
    }
    answer();
    if (all[1].revents) admit();
}

void Control::admit() {
    Descriptor socket(::accept4(listener_.get(), nullptr, nullptr, SOCK_NONBLOCK | SOCK_CLOEXEC));
    if (socket) {
        callers_.push_back(Caller());
        callers_.back().socket = std::move(socket);
        callers_.back().number = ++count_;
        callers_.back().since = Clock::now();
    } else if (errno != EAGAIN && errno != ECONNABORTED && errno != EINTR) {
        say("", "no operator can be taken in: " + reason());
        ::poll(nullptr, 0, TURN);
    }
}

/// Reads what a caller says: whether it goes.
bool Control::hear(Caller &it) {
    char piece[LONGEST_COMMAND];
    const ssize_t count = ::recv(it.socket.get(), piece, sizeof piece, 0);
    if (count < 0 && (errno == EAGAIN || errno == EINTR)) return false;
    if (count <= 0) return true;
    it.bytes.append(piece, static_cast<std::size_t>(count));
    const std::size_t end = it.bytes.find('\n');
    if (end != std::string::npos) return ask(it, it.bytes.substr(0, end));
    return it.bytes.size() >= LONGEST_COMMAND;
}

/// Whether a command is of those who call at this door.
bool Control::takes(const Command &command) const {
    return (command.kind == Command::Kind::Names) == (callersAre_ == Callers::Copies);
}

/// Hands a command to the member: whether its caller goes. A name in front of it says which member is meant, whatever
/// the caller's path has led to. Who has gone was told that nothing answers, and so nothing may come of that.
bool Control::ask(Caller &it, const std::string &words) {
    const std::size_t end = std::min(words.find(' '), words.size());
    const std::string behind = words.substr(std::min(end + 1, words.size()));
    Command command;
    if (!isDeskOf(words.substr(0, end), settings_.member.name(), command.desk) || !Command::read(behind, command) ||
        !takes(command)) {
        send(it.socket.get(), FAILED + std::string("these are no words to the process of ") + settings_.member.name());
        return true;
    }
    if (hasLeft(it.socket.get())) {
        if (callersAre_ == Callers::Operators)
            say("", "a command isn't carried out, since its operator has gone: " + command.words());
        return true;
    }
    if (command.kind == Command::Kind::Status && !command.desk) {
        send(it.socket.get(), DONE + statusOf(member_));
        return true;
    }
    const long number = it.number;
    it.isAsking = true;
    member_.ask({command, callerOf(it.socket.get()), std::time(nullptr), Clock::now() + std::chrono::seconds(MOST_WAIT),
                 [this, number](bool isDone, const std::string &what) { told(number, isDone, what); }});
    return false;
}

/// An outcome, of the member's thread.
void Control::told(long number, bool isDone, const std::string &what) {
    const std::lock_guard<std::mutex> lock(mutex_);
    answers_.emplace_back(number, (isDone ? DONE : FAILED) + what);
    const std::uint64_t one = 1;
    if (::write(bell_.get(), &one, sizeof one) < 0) return;  // It rings already.
}

/// Tells the outcomes that have come.
void Control::answer() {
    std::vector<std::pair<long, std::string>> came;
    {
        const std::lock_guard<std::mutex> lock(mutex_);
        came.swap(answers_);
    }
    for (const auto &it : came) {
        const long number = it.first;
        const auto found = std::find_if(callers_.begin(), callers_.end(),
                                        [number](const Caller &caller) { return caller.number == number; });
        if (found == callers_.end()) continue;  // It has gone.
        send(found->socket.get(), it.second);
        callers_.erase(found);
    }
}

}
