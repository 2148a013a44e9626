#include "folders.h"

#include <fcntl.h>
#include <grp.h>
#include <poll.h>
#include <quickfix/Utility.h>
#include <sys/file.h>
#include <sys/stat.h>
#include <unistd.h>

#include <algorithm>
#include <cerrno>
#include <cstdio>

#include "files.h"
#include "lines.h"

namespace edge {

namespace {

// An edge that was killed may leave its lock behind for a moment, to a child that isn't venue-events yet.
constexpr int TRIES = 50, BETWEEN = 20;  // Milliseconds.

void make(const char *setting, const std::string &folder) {
    FIX::file_mkdir(folder.c_str());  // Those above it, too.
    if (::mkdir(folder.c_str(), 0700) && errno != EEXIST)
        throw BadSetting(setting, "can't be made: " + folder + ": " + reason());
}

/// Locks a file of a folder, for one holder or, by LOCK_SH, for several.
Descriptor locked(const std::string &folder, const char *name, int kind) {
    const char *const setting = "EdgePath";
    const std::string path = folder + "/" + name;
    Descriptor file(::open(path.c_str(), O_RDWR | O_CREAT | O_CLOEXEC, 0600));
    if (!file) throw BadSetting(setting, "can't be used: " + path + ": " + reason());
    for (int tries = 0; ::flock(file.get(), kind | LOCK_NB); tries++) {
        if (errno != EWOULDBLOCK && errno != EINTR)
            throw BadSetting(setting, "can't be locked: " + path + ": " + reason());
        if (tries == TRIES) throw BadSetting(setting, "is another edge's: " + folder);
        ::poll(nullptr, 0, BETWEEN);
    }
    return file;
}

/// Moves the files of this member, whose names begin so, out of a folder of all into the member's own: how many.
int moved(const std::string &ofAll, const std::string &own, const std::vector<std::string> &names) {
    int count = 0;
    for (const std::string &name : names) {
        const std::string from = ofAll + "/" + name, to = own + "/" + name;
        if (!isThere(from)) continue;
        if (isThere(to)) throw std::runtime_error("both " + from + " and " + to + " are there: one of them has to go");
        if (std::rename(from.c_str(), to.c_str()))
            throw std::runtime_error("can't move " + from + " to " + to + ": " + reason());
        count++;
    }
    if (!count) return 0;
    syncFolder(own);
    syncFolder(ofAll);
    return count;
}

/// Takes over the files of an edge that served all members in one process. A start that ended within this goes on here.
void takeOver(const Settings &settings) {
    const std::string name = settings.member.name(), session = filesOf("", settings.member.session).substr(1);
    const auto named = [&session](const std::vector<std::string> &ends) {
        std::vector<std::string> names;
        for (const std::string &end : ends) names.push_back(session + end);
        return names;
    };
    int count = 0;
    if (!settings.ofAll.edge.empty())
        count += moved(settings.ofAll.edge, settings.folder, {name + ".names", name + ".told"});
    const std::string &store = settings.ofAll.store;
    if (!store.empty() && isThere(store + "/" + session + ".session")) {  // The last one that is moved.
        make("FileStorePath", settings.storeFolder);
        count += moved(store, settings.storeFolder, named({".body", ".header", ".seqnums", ".session"}));
    }
    if (!settings.ofAll.log.empty())
        count += moved(settings.ofAll.log, settings.logFolder, named({".messages.current.log", ".event.current.log"}));
    if (count) say(name, std::to_string(count) + " files of an edge of before are in folders of its own now");
}

}

std::vector<Descriptor> heldFolders(const Settings &settings) {
    std::vector<Descriptor> locks;
    const Folders &ofAll = settings.ofAll;
    if (!ofAll.edge.empty()) {
        make("EdgePath", ofAll.edge);
        locks.push_back(locked(ofAll.edge, "lock", LOCK_SH));  // An edge of before wants it alone.
    }
    make("EdgePath", settings.folder);
    locks.push_back(locked(settings.folder, "lock", LOCK_EX));
    if (!ofAll.log.empty()) make("FileLogPath", ofAll.log);
    make("FileLogPath", settings.logFolder);
    takeOver(settings);
    return locks;
}

std::vector<Descriptor> heldForAll(const std::vector<Settings> &members) {
    std::vector<Descriptor> locks;
    for (const Settings &it : members) {
        if (it.ofAll.edge.empty()) continue;
        make("EdgePath", it.ofAll.edge);
        locks.push_back(locked(it.ofAll.edge, "lock", LOCK_SH));
        locks.push_back(locked(it.ofAll.edge, "all.lock", LOCK_EX));
        break;
    }
    return locks;
}

void becomeOwner(const std::string &folder) {
    struct stat it;
    std::string path = folder;
    while (::stat(path.c_str(), &it) && path != "." && path != "/") {
        const std::size_t end = path.rfind('/');
        path = end == std::string::npos ? "." : path.substr(0, std::max<std::size_t>(end, 1));
    }
    if (::geteuid() || !it.st_uid) return;
    if (::setgroups(0, nullptr) || ::setgid(it.st_gid) || ::setuid(it.st_uid))
        throw std::runtime_error("can't act as the owner of " + path + ": " + reason());
}

}
