#include "process.h"

#include <sched.h>
#include <sys/syscall.h>
#include <unistd.h>

#include <csignal>
#include <cstdint>
#include <ctime>
#include <iterator>
#include <list>
#include <memory>
#include <stdexcept>
#include <thread>
#include <vector>

#include "control.h"
#include "desk_ids.h"
#include "door.h"
#include "files.h"
#include "folders.h"
#include "lines.h"
#include "sessions.h"
#include "starter.h"
#include "status.h"
#include "steps.h"
#include "users.h"

namespace edge {

namespace {

/// What the system keeps of how a thread is scheduled (struct sched_attr, its first version).
struct Scheduling {
    std::uint32_t size, policy;
    std::uint64_t flags;
    std::int32_t nice;
    std::uint32_t priority;
    std::uint64_t runtime, deadline, period;
};

/// The shortest slice that a system gives, in nanoseconds.
constexpr std::uint64_t SHORTEST = 100000;

/// Asks for the shortest slices of a core, for this thread and all that it starts. The share of the cores stays the
/// same, but beside programs that only reckon a thread is let in at once where it has work, as after each sync. A
/// system before Linux 6.12 gives none, and one that refuses them leaves the slices of all others.
void shortenSlices() {
    Scheduling it = Scheduling();
    if (::syscall(SYS_sched_getattr, 0, &it, sizeof it, 0) < 0 || it.policy != SCHED_OTHER) return;
    it.size = sizeof it;
    it.runtime = SHORTEST;
    ::syscall(SYS_sched_setattr, 0, &it, 0);
}

/// Signals that end the process in order, held back from all threads. Before that they end it at once: a start leaves
/// nothing half done.
sigset_t heldBack() {
    sigset_t signals;
    sigemptyset(&signals);
    sigaddset(&signals, SIGTERM);
    sigaddset(&signals, SIGINT);
    ::pthread_sigmask(SIG_BLOCK, &signals, nullptr);
    return signals;
}

/// What the library has of the session of a desk.
struct DeskParts {
    DeskParts(const Settings &settings, Record &record, MemberSession &desk)
        : application(desk),
          stores(record, settings.member.desk),
          logs(settings.logFolder, settings.log, settings.member.desk),
          door(application, stores, settings, logs, desk) {
        desk.attach(*door.getSession(settings.member.session), stores.store(), logs.log());
    }

    Application application;
    Stores stores;
    Logs logs;
    Door door;
};

/// All that a member's sessions are of, of which nothing runs yet. Its folders are held meanwhile.
struct Parts {
    explicit Parts(const Settings &settings) : record(recordOf(settings)), member(settings, *record) {
        desks.emplace_back(settings, *record, member.session(FIRST_DESK));
        for (const Settings &it : settings.desks) desks.emplace_back(it, *record, member.session(it.member.desk));
        member.attached();
    }

    const std::unique_ptr<Record> record;
    Member member;
    std::list<DeskParts> desks;
};

/// The threads of doors and member, which end in order, whatever ends them: nobody comes in any more, then the member's
/// ends, and only then do the sessions that it uses.
class Running {
public:
    explicit Running(Parts &parts) : desks_(parts.desks), member_(parts.member) {}

    /// Each door waits for its own client to log out: that of another desk doesn't wait for that.
    ~Running() {
        std::vector<std::thread> others;
        for (auto it = std::next(desks_.begin()); it != desks_.end(); ++it)
            others.emplace_back([it] { it->door.stop(); });
        desks_.front().door.stop();
        for (std::thread &it : others) it.join();
        member_.stop();
    }

    void start(Starter &starter) {
        for (DeskParts &it : desks_) it.door.start();
        say("", "ready");
        starter.tell();
        member_.start();
    }

private:
    std::list<DeskParts> &desks_;
    Member &member_;
};

}

void serveMember(const Settings &settings) {
    shortenSlices();
    Starter starter;
    const std::vector<Descriptor> locks = heldFolders(settings);
    keepSteps(settings);
    keepDesks(settings);
    const sigset_t signals = heldBack();
    Parts parts(settings);
    Member &member = parts.member;
    std::unique_ptr<StatusPage> page;
    if (settings.statusPort) page.reset(new StatusPage(settings.statusPort, member));
    const Control control(settings, member, Callers::Operators);
    std::unique_ptr<Control> names;  // A session of copies has none.
    if (!settings.member.isOfCopies()) names.reset(new Control(settings, member, Callers::Copies));
    {
        Running running(parts);
        running.start(starter);
        int signal;
        ::sigwait(&signals, &signal);
    }
    say("", "stopped");
}

std::string actAlone(const Settings &settings, const Command &command) {
    const std::string who = userOf(::getuid());
    speakFor(settings.member.name());
    if (command.isQuestion() && !isThere(recordPath(settings)))
        throw std::runtime_error(recordPath(settings) + " isn't there, so numbers begin with 1");
    becomeOwner(settings.folder);
    const std::vector<Descriptor> locks = heldFolders(settings);
    const bool isOfVenues = !settings.venues.front().letter.empty();
    if (!isOfVenues || !command.isQuestion()) keepSteps(settings);
    if (command.isQuestion()) needSameDesks(settings);
    else keepDesks(settings);
    Parts parts(settings);
    std::string outcome;
    const auto tell = [&outcome](bool isDone, const std::string &what) { outcome = (isDone ? DONE : FAILED) + what; };
    const auto until = std::chrono::steady_clock::now() + std::chrono::seconds(MOST_WAIT);
    parts.member.actAlone({command, who, std::time(nullptr), until, tell});
    return outcome;
}

}
