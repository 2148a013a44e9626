#include "replay.h"

#include <fcntl.h>
#include <sys/prctl.h>
#include <sys/wait.h>
#include <unistd.h>

#include <cerrno>
#include <csignal>
#include <cstring>
#include <stdexcept>
#include <vector>

#include "lines.h"

extern char **environ;

namespace edge {

namespace {

const std::string OUTPUT = "output ";  // So a line with a report begins.

VenueFault failure(const std::string &why) {
    return VenueFault("venue-events " + why);
}

/// Starts a program whose output goes to this descriptor, and which ends with the thread that has started it: whoever
/// kills the edge leaves none behind. What keeps it from starting is the system's error.
pid_t started(char *const *words, int out) {
    const pid_t parent = ::getpid();
    volatile int fault = 0;  // The child has this memory until it is the other program.
    sigset_t none;
    sigemptyset(&none);
    const pid_t child = ::vfork();
    if (child == 0) {
        ::sigprocmask(SIG_SETMASK, &none, nullptr);  // The edge's threads hold signals back.
        const bool isBound = !::prctl(PR_SET_PDEATHSIG, SIGKILL) && ::getppid() == parent;
        if (isBound && ::dup2(out, STDOUT_FILENO) >= 0) ::execve(words[0], words, environ);
        fault = errno;
        ::_exit(1);
    }
    if (child < 0 || !fault) return child;
    ::waitpid(child, nullptr, 0);
    errno = fault;
    return -1;
}

}

std::size_t reportIn(const char *line, std::size_t size, const std::string &member) {
    if (size < OUTPUT.size() || OUTPUT.compare(0, OUTPUT.size(), line, OUTPUT.size())) return 0;
    const auto *const space = static_cast<const char *>(std::memchr(line + OUTPUT.size(), ' ', size - OUTPUT.size()));
    if (!space) return 0;
    const std::size_t at = static_cast<std::size_t>(space + 1 - line), end = at + member.size();
    return end < size && !member.compare(0, member.size(), line + at, member.size()) && line[end] == ' ' ? end + 1 : 0;
}

Replay::Replay(const VenuePlace &venue, const std::string &member, long after)
    : member_(member), journal_(venue.journal) {
    std::vector<std::string> words{venue.events, venue.journal, after == ONCE ? "once" : "follow"};
    if (after > 0) words.insert(words.end(), {"--after", std::to_string(after)});
    words.insert(words.end(), venue.symbols.begin(), venue.symbols.end());
    std::vector<char *> pointers;
    for (std::string &word : words) pointers.push_back(&word[0]);
    pointers.push_back(nullptr);
    int ends[2];
    if (::pipe2(ends, O_CLOEXEC)) throw failure("can't be started: " + reason());
    out_.reset(ends[0]);
    const Descriptor in(ends[1]);
    child_ = started(pointers.data(), in.get());
    if (child_ < 0) throw failure("can't be started: " + reason());
    ::fcntl(out_.get(), F_SETFL, O_NONBLOCK);
}

Replay::~Replay() {
    if (child_ <= 0) return;
    ::kill(child_, SIGKILL);
    ::waitpid(child_, nullptr, 0);
}

/// Whether the program has ended, and could read all. One that goes on without a word isn't waited for.
bool Replay::hasEnded() {
    int status = 0;
    if (!::waitpid(child_, &status, WNOHANG)) return false;
    child_ = -1;
    if (!status) return true;
    throw failure("can't read the journal " + journal_ + ": " +
                  (WIFEXITED(status) ? "status " + std::to_string(WEXITSTATUS(status))
                                     : "signal " + std::to_string(WTERMSIG(status))));
}

bool Replay::read(const Told &told, const Told &seen) {
    if (isOver()) return hasEnded();
    const auto look = in_.look([this](char *piece, std::size_t size) { return ::read(out_.get(), piece, size); });
    if (look == Inbox::Look::Failed) throw failure("can't be read: " + reason());
    for (std::size_t end; (end = in_.bytes().find('\n', in_.at())) != std::string::npos; in_.take(end + 1 - in_.at())) {
        const std::size_t size = end - in_.at(), front = reportIn(in_.data(), size, member_);
        if (front) told(in_.data() + front, size - front);
        if (seen) seen(in_.data(), size);
    }
    if (look != Inbox::Look::End) return false;
    out_.reset();
    return hasEnded();
}

}
