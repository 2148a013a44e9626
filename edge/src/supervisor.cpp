#include "supervisor.h"

#include <fcntl.h>
#include <poll.h>
#include <sys/prctl.h>
#include <sys/signalfd.h>
#include <sys/wait.h>
#include <unistd.h>

#include <algorithm>
#include <cerrno>
#include <chrono>
#include <csignal>
#include <cstdlib>
#include <list>
#include <stdexcept>

#include "descriptor.h"
#include "lines.h"
#include "starter.h"

namespace edge {

namespace {

using Clock = std::chrono::steady_clock;

constexpr std::chrono::seconds FIRST(1), MOST(30);  // Between an end and the next start.
constexpr std::chrono::seconds LONG(60);            // Who listened so long begins with the first pause again.
constexpr std::chrono::seconds PATIENCE(30);        // For the processes to end in order.

std::string wordsOf(int status) {
    return WIFSIGNALED(status) ? "by signal " + std::to_string(WTERMSIG(status))
                               : "with status " + std::to_string(WEXITSTATUS(status));
}

/// Whether a process that was to end has done so in order: before it listens, SIGTERM and SIGINT end it at once.
bool isInOrder(int status) {
    return !status || (WIFSIGNALED(status) && (WTERMSIG(status) == SIGTERM || WTERMSIG(status) == SIGINT));
}

/// The process of one member.
class Child {
public:
    Child(const std::string &path, const std::string &member) : path_(path), member_(member) {}

    bool isThere() const { return pid_ > 0; }
    bool is(pid_t pid) const { return pid_ == pid; }

    /// Where it says that it listens, or -1 where nothing of that is to come.
    int fd() const { return ready_.get(); }

    /// Whether it has listened once, or has ended once without that.
    bool isSettled() const { return isSettled_; }
    bool isListening() const { return isListening_; }

    Clock::time_point startAt() const { return startAt_; }

    void start();
    void hear();
    void ended(int status);
    bool endedLast(int status);
    void signal(int number) const { ::kill(pid_, number); }
    void kill();

private:
    [[noreturn]] void become(pid_t parent, const Descriptor &ready) const;
    void isGone();

    const std::string path_, member_;
    pid_t pid_ = -1;
    Descriptor ready_;
    bool isSettled_ = false, isListening_ = false, wasKilled_ = false;
    std::chrono::seconds pause_ = std::chrono::seconds(0);
    Clock::time_point startAt_, listensSince_;
};

void Child::start() {
    int ends[2];
    const pid_t parent = ::getpid();
    const bool hasPipe = !::pipe2(ends, O_CLOEXEC);
    ready_.reset(hasPipe ? ends[0] : -1);
    const Descriptor ready(hasPipe ? ends[1] : -1);
    pid_ = hasPipe ? ::fork() : -1;
    if (!pid_) become(parent, ready);
    if (pid_ > 0) return;
    say(member_, "can't be started: " + reason());
    ready_.reset();
    isSettled_ = true;
    startAt_ = Clock::now() + MOST;
}

/// Behind the fork: it ends with its parent from now on, and becomes the member's process, in a session of its own. A
/// kernel that shares out its processors by sessions would let all members have one share.
void Child::become(pid_t parent, const Descriptor &ready) const {
    sigset_t none;
    sigemptyset(&none);
    ::sigprocmask(SIG_SETMASK, &none, nullptr);
    ::setsid();
    ::prctl(PR_SET_PDEATHSIG, SIGTERM);
    if (::getppid() != parent) ::_exit(1);  // The parent has ended already.
    ::fcntl(ready.get(), F_SETFD, 0);
    ::setenv(READY, std::to_string(ready.get()).c_str(), 1);
    ::execl("/proc/self/exe", "gikvand-edge", "--member", member_.c_str(), path_.c_str(), nullptr);
    say(member_, "can't be started: " + reason());
    ::_exit(1);
}

/// Takes in that it listens.
void Child::hear() {
    char byte;
    isListening_ = ::read(ready_.get(), &byte, 1) == 1;
    ready_.reset();  // Where it has ended without that the system says so.
    if (!isListening_) return;
    isSettled_ = true;
    listensSince_ = Clock::now();
}

void Child::isGone() {
    pid_ = -1;
    ready_.reset();
    isListening_ = false;
    isSettled_ = true;
}

/// Takes in that it has ended, and says when it is started again.
void Child::ended(int status) {
    const bool wasLong = isListening_ && Clock::now() - listensSince_ >= LONG;
    isGone();
    pause_ = wasLong || !pause_.count() ? FIRST : std::min(MOST, 2 * pause_);
    startAt_ = Clock::now() + pause_;
    say(member_,
        "its process ended " + wordsOf(status) + ", and is started again in " + std::to_string(pause_.count()) + " s");
}

/// Takes in that it has ended for good, and says how, unless that was in order or is said already: whether it was.
bool Child::endedLast(int status) {
    isGone();
    if (wasKilled_) return false;
    if (!isInOrder(status)) say(member_, "its process ended " + wordsOf(status));
    return isInOrder(status);
}

void Child::kill() {
    say(member_, "its process doesn't end, and is killed");
    wasKilled_ = true;
    signal(SIGKILL);
}

/// All children, and the signals of this process.
class Supervisor {
public:
    Supervisor(const std::string &path, const std::vector<std::string> &members);

    /// Until a signal has come and all have ended: whether they ended in order.
    bool run();

private:
    void turn();
    void startDue();
    void wait();
    void takeSignals();
    void takeEnds();
    void takeEnd(Child &child, int status);
    void stop();
    bool isOver() const;

    std::list<Child> children_;
    Starter starter_;
    Descriptor signals_;
    bool isReady_ = false, isStopping_ = false, isInOrder_ = true;
    Clock::time_point deadline_;
};

Supervisor::Supervisor(const std::string &path, const std::vector<std::string> &members) {
    sigset_t signals;
    sigemptyset(&signals);
    for (const int it : {SIGTERM, SIGINT, SIGCHLD}) sigaddset(&signals, it);
    ::sigprocmask(SIG_BLOCK, &signals, nullptr);
    signals_.reset(::signalfd(-1, &signals, SFD_CLOEXEC | SFD_NONBLOCK));
    if (!signals_) throw std::runtime_error("can't take signals: " + reason());
    for (const std::string &it : members) children_.emplace_back(path, it);
}

bool Supervisor::run() {
    while (!isOver()) turn();
    return isInOrder_;
}

bool Supervisor::isOver() const {
    return isStopping_ &&
           std::none_of(children_.begin(), children_.end(), [](const Child &it) { return it.isThere(); });
}

void Supervisor::turn() {
    if (!isStopping_) startDue();
    wait();
    takeSignals();
    takeEnds();
    const auto isSettled = [](const Child &it) { return it.isSettled(); };
    if (!isReady_ && !isStopping_ && std::all_of(children_.begin(), children_.end(), isSettled)) {
        isReady_ = true;
        const auto count =
            std::count_if(children_.begin(), children_.end(), [](const Child &it) { return it.isListening(); });
        say("", "ready, " + std::to_string(count) + " members");
        starter_.tell();
    }
    if (isStopping_ && Clock::now() >= deadline_) stop();
}

void Supervisor::startDue() {
    for (Child &it : children_)
        if (!it.isThere() && Clock::now() >= it.startAt()) it.start();
}

/// Waits until something has come, or is due.
void Supervisor::wait() {
    std::vector<pollfd> all{{signals_.get(), POLLIN, 0}};
    auto until = isStopping_ ? deadline_ : Clock::now() + MOST;
    for (const Child &it : children_) {
        all.push_back({it.fd(), POLLIN, 0});
        if (!isStopping_ && !it.isThere()) until = std::min(until, it.startAt());
    }
    const auto left = std::chrono::duration_cast<std::chrono::milliseconds>(until - Clock::now()).count() + 1;
    ::poll(all.data(), all.size(), static_cast<int>(std::max<long>(0, left)));
    std::size_t at = 1;
    for (Child &it : children_)
        if (all[at++].revents) it.hear();
}

void Supervisor::takeSignals() {
    signalfd_siginfo it;
    while (::read(signals_.get(), &it, sizeof it) == sizeof it) {
        if (it.ssi_signo == SIGCHLD || isStopping_) continue;
        isStopping_ = true;
        deadline_ = Clock::now() + PATIENCE;
        for (const Child &child : children_)
            if (child.isThere()) child.signal(SIGTERM);
    }
}

void Supervisor::takeEnds() {
    int status;
    for (pid_t pid; (pid = ::waitpid(-1, &status, WNOHANG)) > 0;)
        for (Child &it : children_)
            if (it.is(pid)) takeEnd(it, status);
}

void Supervisor::takeEnd(Child &child, int status) {
    if (!isStopping_) child.ended(status);
    else if (!child.endedLast(status)) isInOrder_ = false;
}

/// Ends those that didn't end in order.
void Supervisor::stop() {
    deadline_ = Clock::now() + PATIENCE;
    for (Child &it : children_)
        if (it.isThere()) it.kill();
}

}

int keepAll(const std::string &path, const std::vector<std::string> &members) {
    const bool isInOrder = Supervisor(path, members).run();
    say("", "stopped");
    return isInOrder ? 0 : 1;
}

}
