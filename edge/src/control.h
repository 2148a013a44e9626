#pragma once

// The doors for operators, and for sessions that copy the member's reports: a socket each in the member's folder, at
// which console.h and name_asker.h call. A command that is read here is handed to the member's thread, which says what
// came of it.

#include <chrono>
#include <list>
#include <mutex>
#include <string>
#include <thread>
#include <utility>
#include <vector>

#include "commands.h"
#include "control_socket.h"
#include "descriptor.h"
#include "member.h"
#include "settings.h"

namespace edge {

/// Takes in commands, and answers each by a line. A few callers are there at a time. One that says nothing is let go
/// soon, and none is waited for. Nobody but the user of this process, and root, can call. Sessions of copies ask for
/// names, and at a door of their own, so that they hold up no operator; operators ask for all else.
class Control {
public:
    Control(const Settings &settings, Member &member, Callers callers);

    /// Answers what has been told by then. The member's thread has ended.
    ~Control();

private:
    using Clock = std::chrono::steady_clock;

    struct Caller {
        Descriptor socket;
        long number;
        Clock::time_point since;
        std::string bytes;
        bool isAsking = false;  // Its command is with the member.
    };

    void run();
    void turn();
    void listen();
    void admit();
    bool hear(Caller &it);
    bool takes(const Command &command) const;
    bool ask(Caller &it, const std::string &words);
    void told(long number, bool isDone, const std::string &what);
    void answer();

    const Settings &settings_;
    Member &member_;
    const Callers callersAre_;
    Descriptor listener_, bell_;
    std::list<Caller> callers_;
    long count_ = 0;
    Clock::time_point listenAt_;
    std::string saidOfListener_;  // What is said isn't said again while it lasts.
    std::mutex mutex_;            // Of what follows.
    std::vector<std::pair<long, std::string>> answers_;
    bool isStopping_ = false;
    std::thread thread_;
};

}
