#include "identity.h"

#include <fstream>
#include <functional>
#include <iterator>

#include "stunnel.h"

namespace edge {

namespace {

const char *const CONFIGURATION = "StunnelConfig";

[[noreturn]] void refuse(const std::string &configuration, const std::string &why) {
    throw BadSetting(CONFIGURATION, "isn't one member's own: " + configuration + ": " + why);
}

std::string contentOf(const std::string &path) {
    std::ifstream file(path, std::ios::binary);
    const std::string content((std::istreambuf_iterator<char>(file)), std::istreambuf_iterator<char>());
    if (!file) throw BadSetting(CONFIGURATION, "can't be read: " + path);
    return content;
}

bool leadsTo(const std::string &connect, const std::string &host, int port) {
    const std::string number = std::to_string(port);
    if (connect == host + ":" + number) return true;
    return host == "127.0.0.1" && (connect == number || connect == "localhost:" + number);
}

/// Two members for whom this is so can't be served side by side: what each has of this setting is the same.
using Clash = std::function<bool(const Settings &, const Settings &)>;

void needOwn(const std::vector<Settings> &members, const char *setting, const Clash &clashes) {
    for (auto one = members.begin(); one != members.end(); ++one)
        for (auto other = std::next(one); other != members.end(); ++other)
            if (clashes(*one, *other))
                throw BadSetting(setting, "is the same for " + one->member.deskName() + " and " +
                                              other->member.deskName() + ", and has to be each one's own");
}

/// The members of a firm, this one with them.
std::set<std::string> firmOf(const MemberSettings &it) {
    std::set<std::string> firm = it.limits.orders.desks;
    firm.insert(it.name());
    return firm;
}

/// Desks of one firm say so of each other.
void needOneFirm(const std::vector<Settings> &members) {
    for (const Settings &one : members)
        for (const Settings &other : members)
            if (one.member.limits.orders.desks.count(other.member.name()) && firmOf(one.member) != firmOf(other.member))
                throw BadSetting("Firm", "has other members for " + one.member.name() + " than for " +
                                             other.member.name() + ", which it says to be of one firm");
}

bool isOneDoor(const Settings &one, const Settings &other) {
    const std::string everywhere = "0.0.0.0";
    return one.member.port == other.member.port &&
           (one.host == other.host || one.host == everywhere || other.host == everywhere);
}

/// What sessions have each for itself, whosever they are.
void needOwnDoors(const std::vector<Settings> &sessions) {
    using One = const Settings &;
    needOwn(sessions, "SocketAcceptPort", isOneDoor);
    needOwn(sessions, "StunnelConfig", [](One it, One other) {
        return !it.member.certificate.empty() && it.member.certificate == other.member.certificate;
    });
}

/// The sessions of all desks of a member.
std::vector<Settings> sessionsOf(const Settings &member) {
    std::vector<Settings> sessions = member.desks;
    sessions.insert(sessions.begin(), member);
    return sessions;
}

}

std::string certificateBy(const std::string &configuration, const std::string &host, int port) {
    StunnelService service;
    try {
        service = serviceOf(contentOf(configuration));
    } catch (const BadService &why) {
        refuse(configuration, why.what());
    }
    if (!leadsTo(service.connect, host, port))
        refuse(configuration, "connect isn't " + host + ":" + std::to_string(port));
    if (service.certificates.empty() || service.certificates[0] != '/')
        refuse(configuration, "CAfile is no path that begins with /");
    try {
        return onlyCertificate(contentOf(service.certificates));
    } catch (const BadService &why) {
        refuse(configuration, "CAfile " + service.certificates + " " + why.what());
    }
}

void needDesksApart(const Settings &member) {
    needOwnDoors(sessionsOf(member));
}

void needApart(const std::vector<Settings> &members) {
    using One = const Settings &;
    std::vector<Settings> sessions;
    for (const Settings &it : members) {
        const std::vector<Settings> its = sessionsOf(it);
        sessions.insert(sessions.end(), its.begin(), its.end());
    }
    needOwnDoors(sessions);
    needOwn(members, "HttpAcceptPort",
            [](One it, One other) { return it.statusPort && it.statusPort == other.statusPort; });
    needOwn(members, "EdgePath", [](One it, One other) { return it.folder == other.folder; });
    needOwn(members, "FileStorePath",
            [](One it, One other) { return !it.storeFolder.empty() && it.storeFolder == other.storeFolder; });
    needOwn(members, "FileLogPath", [](One it, One other) { return it.logFolder == other.logFolder; });
    needOneFirm(members);
}

}
