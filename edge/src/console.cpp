#include "console.h"

#include <poll.h>
#include <sys/socket.h>

#include <algorithm>
#include <cerrno>
#include <cstring>
#include <iostream>
#include <set>
#include <utility>

#include "control_socket.h"
#include "lines.h"
#include "process.h"
#include "settings.h"
#include "surroundings.h"

namespace edge {

namespace {

using Clock = std::chrono::steady_clock;

constexpr std::chrono::seconds PATIENCE(MOST_WAIT + 5);

/// A member's process that is asked, or a member whose process doesn't run, where the command is carried out here.
class Asking {
public:
    Asking(const MemberFolder &of, const Command &command, bool isAlone) : of_(of), command_(command) {
        socket_ = controlConnection(of.folder, of.member, Callers::Operators);
        isHere_ = !socket_ && (errno == ENOENT || errno == ECONNREFUSED) && command.isOfNumbers() && isAlone;
        if (!socket_) {
            const char *const what = errno == EAGAIN   ? "its process is busy"
                                     : errno == EACCES ? "this user may not ask its process"
                                                       : "its process doesn't run";
            fault_ = std::string(what) + ": " + controlPath(of.folder, of.member, Callers::Operators) + ": " + reason();
            return;
        }
        const std::string line = name() + " " + command.words() + "\n";
        if (::send(socket_.get(), line.data(), line.size(), MSG_NOSIGNAL) != static_cast<ssize_t>(line.size()))
            fault_ = "its process can't be asked: " + reason();
    }

    /// Waits for the answer, and prints it. Whether that is done.
    bool print(Clock::time_point until);

private:
    void hear(Clock::time_point until);
    void act();
    std::string name() const { return of_.member + (command_.desk ? "." + std::to_string(command_.desk) : ""); }

    const MemberFolder of_;
    const Command command_;
    bool isHere_ = false;
    Descriptor socket_;
    std::string bytes_, fault_;
};

/// Reads the answer, which is a line. Who has broken into the process may send anything.
void Asking::hear(Clock::time_point until) {
    while (fault_.empty() && (bytes_.empty() || bytes_.back() != '\n') && bytes_.size() < LONGEST_ANSWER) {
        const auto left = std::chrono::duration_cast<std::chrono::milliseconds>(until - Clock::now()).count();
        pollfd it{socket_.get(), POLLIN, 0};
        char piece[LONGEST_ANSWER];
        if (left <= 0 || ::poll(&it, 1, static_cast<int>(left)) == 0) {
            fault_ = "its process doesn't answer: ask for its status";
            continue;
        }
        const ssize_t count = ::recv(socket_.get(), piece, sizeof piece, 0);
        if (count < 0 && (errno == EAGAIN || errno == EINTR)) continue;
        if (count > 0) bytes_.append(piece, static_cast<std::size_t>(count));
        else fault_ = "its process ended before it answered: ask for its status once it runs";
    }
}

/// Carries the command out, in the place of a process that doesn't run.
void Asking::act() {
    fault_.clear();
    try {
        bytes_ = actAlone(readOne(of_.settings, of_.member), command_);
    } catch (const std::exception &why) {
        fault_ = std::string("its process doesn't run, and its record can't be used: ") + why.what();
    }
}

bool Asking::print(Clock::time_point until) {
    if (isHere_) act();
    else hear(until);
    const std::string line = printed(bytes_.substr(0, bytes_.find('\n')));
    const bool isDone = fault_.empty() && !line.compare(0, std::strlen(DONE), DONE);
    if (fault_.empty() && !isDone && line.compare(0, std::strlen(FAILED), FAILED))
        fault_ = "its process gives no answer";
    const bool isNamed = command_.kind == Command::Kind::Status;  // Its answer has the member's name.
    if (isDone) std::cout << (isNamed ? "" : name() + ": ") << line.substr(std::strlen(DONE)) << std::endl;
    else say(name(), fault_.empty() ? line.substr(std::strlen(FAILED)) : fault_);
    return isDone;
}

/// Whether a command to all is for this one: a session of copies has nothing to stop or to cancel.
bool isAsked(const Command &command, const MemberFolder &it) {
    return !isOfCopies(it.member) || command.isQuestion() || command.isOfNumbers();
}

std::vector<MemberFolder> foldersOf(const Call &call) {
    std::vector<MemberFolder> folders;
    for (const std::string &path : call.paths)
        for (const std::string &file : settingsAt(path))
            for (const MemberFolder &it : readFolders(file))
                if (call.member == it.member || (call.member.empty() && isAsked(call.command, it)))
                    folders.push_back(it);
    return folders;
}

}

bool isVerb(const std::string &word) {
    static const std::set<std::string> verbs{"stop", "resume", "cancel", "halt", "status", "numbers"};
    return verbs.count(word);
}

bool readCall(const std::vector<std::string> &words, Call &into) {
    if (words.size() < 3) return false;
    const std::string &verb = words[0];
    const std::string what = words[1].substr(0, words[1].find('.'));
    int desk = 0;
    if (!isDeskOf(words[1], what, desk)) return false;
    const bool isOfSymbols = verb == "halt" || verb == "resume";  // A symbol may have such a name as D1.
    const bool isOfOne = isMember(what) || (isOfCopies(what) && !isOfSymbols);
    const bool isOfMembers = what == "all" || isOfOne;
    const bool sets = isOfMembers && isNumber(words[2]);  // A file of such a name is ./5.
    if (sets && (!isOfOne || words.size() < 5)) return false;
    const std::string asked = sets ? verb + " " + words[2] + " " + words[3] : isOfMembers ? verb : verb + " " + what;
    if (!Command::read(asked, into.command)) return false;
    if (desk && !isOfOne) return false;
    into.command.desk = desk;
    if (isOfOne) into.member = what;
    into.paths.assign(words.begin() + (sets ? 4 : 2), words.end());
    return std::none_of(into.paths.begin(), into.paths.end(),
                        [](const std::string &it) { return it.empty() || it[0] == '-'; });
}

int callMembers(const Call &call) {
    const std::vector<MemberFolder> folders = foldersOf(call);
    if (folders.empty()) {
        say("", "no session of these settings is of " + (call.member.empty() ? "a member" : call.member));
        return 1;
    }
    std::vector<Asking> all;
    for (const MemberFolder &it : folders) all.emplace_back(it, call.command, folders.size() == 1);
    const auto until = Clock::now() + PATIENCE;
    bool areDone = true;
    for (Asking &it : all) areDone = it.print(until) && areDone;
    return areDone && std::cout ? 0 : 1;
}

}
