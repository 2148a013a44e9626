#include "surroundings.h"

#include <dirent.h>
#include <grp.h>
#include <sys/stat.h>
#include <unistd.h>

#include <algorithm>
#include <cstdlib>
#include <fstream>
#include <memory>
#include <utility>

#include "lines.h"
#include "setting_names.h"
#include "setting_values.h"
#include "users.h"

namespace edge {

namespace {

using FIX::Dictionary;

const char *const SERVICES = "/etc/gikvand-edge/", *const USERS = "gikvand-edge-", *const READERS = "venued";
const char *const VENUE = "/etc/venued.conf", *const VENUES = "/etc/venued";
const char *const SETTINGS = ".cfg";
const std::string PORT = "VenuePort";

struct Close {
    void operator()(DIR *folder) const { ::closedir(folder); }
};

bool endsWith(const std::string &text, const std::string &end) {
    return text.size() > end.size() && !text.compare(text.size() - end.size(), end.size(), end);
}

/// The files of a folder whose names end so, in their order.
std::vector<std::string> filesIn(const std::string &folder, const std::string &end) {
    std::vector<std::string> paths;
    const std::unique_ptr<DIR, Close> all(::opendir(folder.c_str()));
    while (const dirent *it = all ? ::readdir(all.get()) : nullptr)
        if (endsWith(it->d_name, end)) paths.push_back(folder + "/" + it->d_name);
    std::sort(paths.begin(), paths.end());
    return paths;
}

bool isSameFile(const std::string &one, const std::string &other) {
    struct stat first, second;
    return !::stat(one.c_str(), &first) && !::stat(other.c_str(), &second) && first.st_dev == second.st_dev &&
           first.st_ino == second.st_ino;
}

/// Reads what the sessions of the one member of a file have: whether that can be.
bool isRead(const std::string &path, std::vector<Dictionary> &into) {
    try {
        into = readPlain(path);
        return true;
    } catch (const BadSetting &) {
        return false;
    }
}

/// Whether both have one value.
bool isShared(const Dictionary &one, const Dictionary &other, const char *name) {
    return one.has(name) && other.has(name) && one.getString(name) == other.getString(name);
}

/// Where a member listens, as the name of the setting, the host and the port.
struct Door {
    const char *name;
    std::string host, port;
};

std::vector<Door> doorsOf(const Dictionary &from) {
    const std::string loopback = "127.0.0.1";
    std::vector<Door> doors;
    for (const char *name : {"SocketAcceptPort", "HttpAcceptPort"})
        if (from.has(name)) doors.push_back({name, loopback, from.getString(name)});
    if (!doors.empty() && from.has("SocketAcceptHost")) doors[0].host = from.getString("SocketAcceptHost");
    return doors;
}

bool isOneDoor(const Door &one, const Door &other) {
    const std::string everywhere = "0.0.0.0";
    return one.port == other.port && (one.host == other.host || one.host == everywhere || other.host == everywhere);
}

void needApart(const Dictionary &own, const Dictionary &other, const std::string &path) {
    const std::string too = " is that of " + path + ", too: each member has its own";
    for (const std::string &port : venueSettings())
        if (!port.compare(0, PORT.size(), PORT) && isShared(own, other, "Member") && isShared(own, other, port.c_str()))
            throw BadSetting("Member", own.getString("Member") + too);
    for (const Door &it : doorsOf(own))
        for (const Door &door : doorsOf(other))
            if (isOneDoor(it, door)) throw BadSetting(it.name, it.port + too);
    for (const char *name : {"EdgePath", "FileLogPath"})  // Another path is in the folder of the service.
        if (isShared(own, other, name) && own.getString(name).compare(0, 1, "/") == 0)
            throw BadSetting(name, own.getString(name) + too);
}

/// The number behind a name in a file of lines NAME=VALUE, as systemd reads it, or 0.
long numberIn(const std::string &path, const std::string &name) {
    std::ifstream file(path);
    long number = 0;
    for (std::string line; std::getline(file, line);) {
        line.erase(std::remove_if(line.begin(), line.end(), [](char it) { return it == '"' || it == '\''; }),
                   line.end());
        if (!line.compare(0, name.size() + 1, name + "=")) number = std::atol(line.c_str() + name.size() + 1);
    }
    return number;
}

/// The venue's words, where they are on this machine, have this port and this member.
void needGatewayOf(const Settings &settings, const VenuePlace &venue) {
    std::vector<std::string> paths = filesIn(VENUES, ".conf");
    paths.insert(paths.begin(), VENUE);
    for (const std::string &path : paths) {
        const long first = numberIn(path, "PORT"), count = numberIn(path, "GATEWAYS"), port = venue.port;
        if (port > first && port < first + count)
            throw BadSetting(PORT + venue.letter, "isn't PORT of " + path + ", " + std::to_string(first) +
                                                      ", but the port of C" + std::to_string(port - first + 1) + ": " +
                                                      std::to_string(port));
        if (port == first && settings.member.number > count)
            throw BadSetting("Member", "is above GATEWAYS of " + path + ", " + std::to_string(count) + ": " +
                                           settings.member.name());
    }
}

}

std::vector<std::string> settingsAt(const std::string &path) {
    struct stat it;
    if (::stat(path.c_str(), &it) || !S_ISDIR(it.st_mode)) return {path};
    const std::vector<std::string> paths = filesIn(path, SETTINGS);
    if (paths.empty()) throw BadSetting(path, "has no NAME.cfg: are these the settings of gikvand-edge?");
    return paths;
}

void needOwnPlaces(const std::string &path) {
    const std::size_t end = path.rfind('/');
    std::vector<Dictionary> own, its;
    if (!isRead(path, own)) return;
    for (const std::string &other : filesIn(end == std::string::npos ? "." : path.substr(0, end), SETTINGS)) {
        if (isSameFile(path, other) || !isRead(other, its)) continue;
        for (const Dictionary &one : own)
            for (const Dictionary &it : its) needApart(one, it, other);
    }
}

void needGateway(const Settings &settings) {
    for (const VenuePlace &it : settings.venues)
        if (!it.host.compare(0, 4, "127.")) needGatewayOf(settings, it);
}

bool becomeServicesUser(const std::string &path) {
    const std::unique_ptr<char, decltype(&std::free)> real(::realpath(path.c_str(), nullptr), &std::free);
    const std::string file = real ? real.get() : "", front = SERVICES;
    if (::geteuid() || file.compare(0, front.size(), front) || !endsWith(file, SETTINGS)) return false;
    const std::string name =
        USERS + file.substr(front.size(), file.size() - front.size() - std::string(SETTINGS).size());
    User user;
    gid_t group = 0;
    if (!findUser(name, user)) return false;
    const std::size_t groups = findGroup(READERS, group) ? 1 : 0;
    if (::setgroups(groups, &group) || ::setgid(user.group) || ::setuid(user.number))
        throw std::runtime_error("can't look at the settings as " + name + ": " + reason());
    return true;
}

}
