#include "name_asker.h"

#include <sys/socket.h>

#include <algorithm>
#include <cerrno>
#include <cstring>
#include <iterator>

#include "commands.h"
#include "control_socket.h"
#include "lines.h"

namespace edge {

namespace {

constexpr std::chrono::seconds PATIENCE(3);
constexpr std::chrono::milliseconds AGAIN(100);
constexpr std::chrono::milliseconds HOLDS(500);  // Shorter than a process takes to be started again.

}

constexpr std::size_t NameAsker::MOST_NAMES;

void NameAsker::ask(long from, long greatest) {
    if (socket_ || Clock::now() < askAt_) return;
    Command command;
    command.kind = Command::Kind::Names;
    command.from = from_ = from;
    command.venue = venue_;
    greatest_ = greatest;
    const std::string line = member_.name + " " + command.words() + "\n";
    bytes_.clear();
    since_ = Clock::now();
    socket_ = controlConnection(member_.folder, member_.name, Callers::Copies);
    const ssize_t size = socket_ ? ::send(socket_.get(), line.data(), line.size(), MSG_NOSIGNAL) : -1;
    if (size != static_cast<ssize_t>(line.size())) fail("its process can't be asked: " + reason());
}

void NameAsker::look() {
    if (!socket_) return;
    char piece[LONGEST_ANSWER];
    const ssize_t count = ::recv(socket_.get(), piece, sizeof piece, 0);
    if (count > 0) bytes_.append(piece, static_cast<std::size_t>(count));
    const bool waits = count < 0 && (errno == EAGAIN || errno == EINTR);
    const std::size_t end = bytes_.find('\n');
    if (end != std::string::npos) take(bytes_.substr(0, end));
    else if ((count <= 0 && !waits) || bytes_.size() >= LONGEST_ANSWER) fail("its process gives no answer");
    else if (Clock::now() - since_ >= PATIENCE) fail("its process doesn't answer");
}

/// Takes the answer in. One without the name that was asked for is of a process that is to learn of that.
void NameAsker::take(const std::string &line) {
    ToldNames came;
    if (line.compare(0, std::strlen(DONE), DONE)) return fail("its process says: " + shown(line));
    if (!readToldNames(line.substr(std::strlen(DONE)), came)) return fail("its process gives no names");
    const std::string stranger = strangerIn(came);
    if (!stranger.empty()) return refuse(stranger);
    if (!came.names.count(from_)) return fail("its process hasn't read so far");
    socket_.reset();
    away_.clear();
    saidOfOther_.clear();
    holdsUntil_ = Clock::now() + HOLDS;
    keep(std::move(came));
}

/// Names of numbers that the journal doesn't have yet may come to be those of other requests.
void NameAsker::keep(ToldNames came) {
    came.names.erase(came.names.upper_bound(greatest_), came.names.end());
    if (came.opening != told_.opening) told_.names.clear();
    told_.opening = came.opening;
    for (auto &it : came.names) told_.names[it.first] = std::move(it.second);
    while (told_.names.size() > MOST_NAMES) {
        const auto first = told_.names.begin();
        told_.names.erase(first->first == from_ ? std::next(first) : first);
    }
}

/// A CompID of an answer that isn't of the member by the settings, or nothing.
std::string NameAsker::strangerIn(const ToldNames &came) const {
    const std::vector<std::string> &own = member_.compIds;
    if (came.compId != own.front()) return came.compId;
    for (const auto &it : came.names) {
        const std::string &compId = it.second.compId;
        if (!compId.empty() && std::find(own.begin(), own.end(), compId) == own.end()) return compId;
    }
    return "";
}

/// The settings say whose reports are copied, and no process.
void NameAsker::refuse(const std::string &compId) {
    const std::string line = "copies of " + member_.name + " wait: its process says that it is of " + shown(compId) +
                             ", and the settings that it is of " + member_.compIdWords();
    if (saidOfOther_ != line) say("", line);
    saidOfOther_ = line;
    fail("its process is another member's");
}

void NameAsker::fail(const std::string &why) {
    socket_.reset();
    away_ = why;
    askAt_ = Clock::now() + AGAIN;
}

std::chrono::milliseconds NameAsker::pause(std::chrono::milliseconds most) const {
    return away_.empty() && !socket_ ? most : std::min(most, AGAIN);
}

}
