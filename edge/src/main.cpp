#include <sys/stat.h>
#include <unistd.h>

#include <cerrno>
#include <csignal>
#include <ctime>
#include <iostream>

#include "console.h"
#include "desk_ids.h"
#include "folders.h"
#include "hours.h"
#include "lines.h"
#include "process.h"
#include "supervisor.h"
#include "surroundings.h"
#include "users.h"

namespace {

const char *const USAGE = "usage: gikvand-edge [--check] [--all|--member Ck] SETTINGS\n"
                          "       gikvand-edge stop|resume|cancel|status|numbers Ck|all SETTINGS...\n"
                          "       gikvand-edge halt|resume SYMBOL SETTINGS...\n"
                          "       gikvand-edge numbers Ck OUT IN SETTINGS...\n"
                          "       gikvand-edge --help|--version";

/// What the words of a command line ask for.
struct Words {
    bool checks = false, isForAll = false;
    std::string member;  // Empty: the only one of the file, or all.
    std::string path;
};

/// Tells the project's version.
int actForVersion() {
    std::cout << "gikvand-edge " << GIKVAND_VERSION << std::endl;
    return std::cout ? 0 : 1;
}

/// Tells the words that there are.
int actForHelp() {
    std::cout << USAGE << "\n\ngikvand-edge(8) says what they do, and gikvand-edge.cfg(5) what SETTINGS may have.\n";
    return std::cout.flush() ? 0 : 1;
}

/// Whether these are words that there are.
bool isRead(const std::vector<std::string> &words, Words &into) {
    auto at = words.begin();
    const auto takes = [&](const char *word) { return at != words.end() && *at == word && (++at, true); };
    into.checks = takes("--check");
    if (takes("--all")) into.isForAll = true;
    else if (takes("--member") && at != words.end()) into.member = *at++;
    if (words.end() - at != 1 || at->compare(0, 1, "-") == 0) return false;
    into.path = *at;
    return true;
}

/// Tells of a journal that can't be read now: its venue makes it at the first start, so that is no fault of the
/// settings.
void tellOfJournal(const edge::VenuePlace &venue) {
    const std::string &path = venue.journal;
    if (!::access(path.c_str(), R_OK)) return;
    const bool isThere = errno != ENOENT && errno != ENOTDIR;
    std::cout << "VenueJournal" << venue.letter << ": " << (isThere ? "can't be read" : "isn't there")
              << " now: " << path << "\n";
}

/// Tells of a session that asks who comes, though it may take anyone in.
void tellOfIdentity(const edge::MemberSettings &it) {
    if (!it.takesAnyone || (it.username.empty() && it.certificate.empty())) return;
    const char *const asks = it.username.empty() ? "StunnelConfig asks for a certificate" : "Username asks for a password";
    std::cout << it.deskName() << ": " << asks << ", in spite of AllowAnyone=Y\n";
}

/// Tells who finds these settings right, what they lack of the venue, which members couldn't log on now, and which
/// sessions ask for more than the settings seem to want.
int tellRight(const std::vector<edge::Settings> &members) {
    std::cout << "the settings are right, as " << edge::userOf(::geteuid()) << " reads them\n";
    for (const edge::VenuePlace &it : members.front().venues) tellOfJournal(it);  // The same for all.
    for (const edge::Settings &it : members) {
        const std::string outside = edge::outsideOf(it.hours, std::time(nullptr));
        if (!outside.empty()) std::cout << it.member.name() << ": " << outside << "\n";
        tellOfIdentity(it.member);
        for (const edge::Settings &desk : it.desks) tellOfIdentity(desk.member);
    }
    return std::cout.flush() ? 0 : 1;
}

/// Looks at a member's settings, and once more as the user whom its service has.
int checkOne(const Words &words) {
    edge::Settings settings = edge::readOne(words.path, words.member);
    edge::needSameDesks(settings);
    edge::needGateway(settings);
    edge::needOwnPlaces(words.path);
    if (!edge::becomeServicesUser(words.path)) return tellRight({settings});
    try {
        settings = edge::readOne(words.path, words.member);
        edge::needSameDesks(settings);
    } catch (const edge::BadSetting &why) {
        throw std::runtime_error(why.what() + (", as " + edge::userOf(::geteuid())) + " reads it");
    }
    return tellRight({settings});
}

int actForOne(const Words &words) {
    edge::speakFor(words.member);
    if (words.checks) return checkOne(words);
    const edge::Settings settings = edge::readOne(words.path, words.member);
    edge::speakFor(settings.member.name());
    edge::serveMember(settings);
    return 0;
}

int actForAll(const Words &words) {
    const std::vector<edge::Settings> members = edge::readAll(words.path);
    if (words.checks) {
        for (const edge::Settings &it : members) {
            edge::needSameDesks(it);
            edge::needGateway(it);
        }
        return tellRight(members);
    }
    const std::vector<edge::Descriptor> locks = edge::heldForAll(members);
    std::vector<std::string> names;
    for (const edge::Settings &it : members) names.push_back(it.member.name());
    return edge::keepAll(words.path, names);
}

}

int main(int count, char **given) {
    const std::vector<std::string> all(given + 1, given + count);
    if (all == std::vector<std::string>{"--version"}) return actForVersion();
    if (all == std::vector<std::string>{"--help"}) return actForHelp();
    const bool asks = !all.empty() && edge::isVerb(all[0]);
    Words words;
    edge::Call call;
    if (asks ? !edge::readCall(all, call) : !isRead(all, words)) {
        std::cerr << USAGE << "\n";
        return asks ? 2 : 1;
    }
    ::umask(077);
    ::signal(SIGPIPE, SIG_IGN);  // Who reads its lines may go away.
    try {
        if (asks) return edge::callMembers(call);
        return words.isForAll ? actForAll(words) : actForOne(words);
    } catch (const std::exception &why) {
        edge::say("", why.what());
        return 1;
    }
}
