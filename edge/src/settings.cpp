#include "settings.h"

#include <arpa/inet.h>
#include <quickfix/DataDictionary.h>
#include <quickfix/Utility.h>
#include <sys/stat.h>
#include <unistd.h>

#include <algorithm>
#include <cerrno>
#include <cstdlib>
#include <fstream>
#include <iterator>
#include <utility>

#include "hours.h"
#include "identity.h"
#include "setting_names.h"
#include "setting_values.h"
#include "steps.h"

namespace edge {

namespace {

constexpr int MEMBERS = 8, GREATEST_TAG = 99999;
constexpr std::size_t LEAST_READ = 100;  // Messages in a second: below this a Logon alone would hold up for seconds.
// The dictionary where none is named: the package's own.
const char *const DICTIONARY = "/usr/share/gikvand-edge/FIX44-edge.xml";
// Account, HandlInst, ExecInst and others that engines write by themselves and that ask the venue for nothing.
const char *const DROPPED = "1 15 21 22 48 58 100 114 167 207 528 581 582 1028";

// What a session of copies has no use for.
const char *const OF_TRADERS[] = {"CancelOnDisconnect",
                                  "DayEndTime",
                                  "Desk",
                                  "DropFields",
                                  "Firm",
                                  "MarketData",
                                  "MarketDataInterval",
                                  "MaxMessagesPerSecond",
                                  "MaxOpenOrders",
                                  "MaxOpenValue",
                                  "MaxOrderQuantity",
                                  "MaxOrderValue",
                                  "MaxRequestsUnderWay",
                                  "MemberMaxMessagesPerSecond",
                                  "MemberMaxOpenOrders",
                                  MEMBERS_OPEN_VALUE,
                                  "OnlyClosing",
                                  "PriceCollar",
                                  "ReferencePrices",
                                  "ResetByMember",
                                  "SelfTrade",
                                  "TradeSymbols"};

// What belongs to a member, and not to one of its desks: each of its sessions has the same.
const char *const OF_MEMBERS[] = {"SenderCompID",
                                  "StartTime",
                                  "EndTime",
                                  "StartDay",
                                  "EndDay",
                                  "DayEndTime",
                                  "EdgePath",
                                  "FileLogPath",
                                  "FileStorePath",
                                  "HttpAcceptPort",
                                  "DiskReserve",
                                  "MaxFolderBytes",
                                  "MaxLogBytes",
                                  "MaxLogFiles",
                                  "SelfTrade",
                                  "Firm",
                                  "MemberMaxMessagesPerSecond",
                                  "MemberMaxOpenOrders",
                                  MEMBERS_OPEN_VALUE};

using FIX::Dictionary;

void needFile(const std::string &name, const std::string &path, int mode) {
    if (::access(path.c_str(), mode)) throw BadSetting(name, "can't be used: " + path);
}

/// Symbols of a venue with their steps, as ABC:0.01 XYZ:1. No two venues have one symbol.
void readTicks(const Dictionary &from, VenuePlace &venue, Settings &into) {
    const std::string name = "Symbols" + venue.letter;
    for (const std::string &word : wordsOf(textOf(from, name))) {
        const std::string symbol = word.substr(0, word.find(':'));
        if (!isSymbol(symbol) || symbol.size() == word.size())
            throw BadSetting(name, "isn't of SYMBOL:STEP, as ABC:0.01: " + word);
        try {
            if (!into.ticks.emplace(symbol, Tick(word.substr(symbol.size() + 1))).second)
                throw BadSetting(name, "has one twice: " + symbol);
        } catch (const std::invalid_argument &why) {
            throw BadSetting(name, why.what());
        }
        venue.symbols.push_back(symbol);
    }
    if (venue.symbols.empty() && !venue.letter.empty()) throw BadSetting(name, "has no symbol");
    if (venue.symbols.size() > MEMBERS) throw BadSetting(name, "has more than eight");
    std::ifstream beside(venue.journal + ".symbols");
    std::string line;
    if (beside && std::getline(beside, line) && wordsOf(line) != venue.symbols)
        throw BadSetting(name, "are others than those of " + venue.journal + ".symbols, which are " + line);
}

/// The password of a user, of a file of lines USER:PASSWORD that its owner alone may read. Behind a second line of the
/// user, or by a blank that nobody sees, another password would count than the one that was written last.
std::string passwordOf(const std::string &path, const std::string &user) {
    struct stat it;
    std::ifstream file(path);
    const bool isSeen = !::stat(path.c_str(), &it);
    if (!isSeen && (errno == ENOENT || errno == ENOTDIR)) throw BadSetting("PasswordFile", "isn't there: " + path);
    if (!isSeen || !file) throw BadSetting("PasswordFile", "can't be read: " + path);
    if (it.st_mode & 077) throw BadSetting("PasswordFile", "may be used by others than its owner: chmod 0600 " + path);
    const std::string front = user + ":";
    std::vector<std::string> found;
    for (std::string line; std::getline(file, line);)
        if (!line.compare(0, front.size(), front)) found.push_back(line.substr(front.size()));
    if (found.empty()) throw BadSetting("Username", "has no line in " + path + ": " + user);
    const auto refuse = [&](const char *what) { throw BadSetting("PasswordFile", what + user + ": " + path); };
    const auto isBlank = [](char it) { return it == ' ' || it == '\t' || it == '\r'; };
    const std::string &password = found.front();
    if (found.size() > 1) refuse("has two lines of ");
    if (password.empty()) refuse("has an empty password of ");
    if (isBlank(password.front())) refuse("has a blank in front of the password of ");
    if (isBlank(password.back())) refuse("has a blank behind the password of ");
    return password;
}

std::set<int> tagsOf(const Dictionary &from, const std::string &name, const std::string &other) {
    std::set<int> tags;
    for (const std::string &word : wordsOf(from.has(name) ? from.getString(name) : other)) {
        if (word.size() > 5 || word.find_first_not_of("0123456789") != std::string::npos)
            throw BadSetting(name, "has what is no tag: " + word);
        tags.insert(std::stoi(word));
    }
    return tags;
}

Limits limitsOf(const Dictionary &from) {
    Limits it;
    it.messagesPerSecond = static_cast<int>(numberOr(from, "MaxMessagesPerSecond", 0, MOST, 0));
    it.openOrders = static_cast<int>(numberOr(from, "MaxOpenOrders", 0, MOST, 0));
    it.membersPerSecond = static_cast<int>(numberOr(from, "MemberMaxMessagesPerSecond", 0, MOST, 0));
    it.membersOpenOrders = static_cast<int>(numberOr(from, "MemberMaxOpenOrders", 0, MOST, 0));
    it.messageBytes = static_cast<std::size_t>(numberOr(from, "MaxMessageBytes", 256, 65536, 4096));
    it.unsentBytes = static_cast<std::size_t>(numberOr(from, "MaxUnsentBytes", 65536, 1 << 30, 4 << 20));
    it.readMessages = static_cast<std::size_t>(numberOr(from, "MaxReadMessagesPerSecond", 0, MOST, 20000));
    if (it.readMessages && it.readMessages < LEAST_READ)
        throw BadSetting("MaxReadMessagesPerSecond", "isn't 0, nor " + std::to_string(LEAST_READ) + " or more");
    it.readBytes = static_cast<std::size_t>(numberOr(from, "MaxReadBytesPerSecond", 0, 1 << 30, 8 << 20));
    it.underWay = static_cast<std::size_t>(numberOr(from, "MaxRequestsUnderWay", 1, 1000000, 4000));
    it.cancelOnDisconnect = flagOr(from, "CancelOnDisconnect", false);
    it.mayReset = !from.has("DropCopyOf") && flagOr(from, "ResetByMember", false);
    it.dropped = tagsOf(from, "DropFields", DROPPED);
    it.lastCapacity = textOr(from, "LastCapacity", "");
    if (it.lastCapacity.size() > 1 || it.lastCapacity.find_first_not_of("1234") != std::string::npos)
        throw BadSetting("LastCapacity", "isn't 1 to 4: " + it.lastCapacity);
    return it;
}

/// How a copy says whose report it is.
CopyNames copyNamesOf(const Dictionary &from) {
    const std::string text = textOr(from, "DropCopyNames", "Parties");
    if (text == "115") return CopyNames::OnBehalfOf;
    if (text == "128") return CopyNames::DeliverTo;
    if (text != "Parties") throw BadSetting("DropCopyNames", "isn't Parties, 115 or 128: " + text);
    return CopyNames::Parties;
}

/// Which one of its member's desks a session is.
int deskOf(const Dictionary &from) {
    return static_cast<int>(numberOr(from, "Desk", FIRST_DESK, MOST_DESKS, FIRST_DESK));
}

MemberSettings memberOf(const FIX::SessionID &session, const Dictionary &from) {
    const std::string name = textOf(from, "Member");
    const bool copies = from.has("DropCopyOf");
    if (!(copies ? isOfCopies(name) : isMember(name)))
        throw BadSetting("Member",
                         (copies ? "isn't D1 to D8, as of a session with DropCopyOf: " : "isn't C1 to C8: ") + name);
    MemberSettings it{
        name[1] - '0',
        session,
        static_cast<int>(numberOf(from, "SocketAcceptPort", 1, 65535)),
        textOr(from, "Username", ""),
        "",
        "",
        limitsOf(from),
        {flagOr(from, "MarketData", false), static_cast<int>(numberOr(from, "MarketDataInterval", 10, 60000, 100))},
        {},
        copyNamesOf(from),
        deskOf(from)};
    if (from.has("PasswordFile") != from.has("Username"))
        throw BadSetting(from.has("Username") ? "PasswordFile" : "Username", "is missing beside the other of the two");
    if (!it.username.empty()) it.password = passwordOf(textOf(from, "PasswordFile"), it.username);
    return it;
}

/// What tells this member from others: a password, or a certificate of its own. The settings have to say so where
/// neither does.
void readIdentity(const Dictionary &from, Settings &into) {
    MemberSettings &member = into.member;
    if (from.has("StunnelConfig")) {
        if (into.host.compare(0, 4, "127."))
            throw BadSetting("SocketAcceptHost",
                             "isn't of the loopback, so that clients may pass by the stunnel of "
                             "StunnelConfig: " +
                                 into.host);
        member.certificate = certificateBy(textOf(from, "StunnelConfig"), into.host, member.port);
    }
    member.takesAnyone = flagOr(from, "AllowAnyone", false);
    if (member.takesAnyone || !member.username.empty() || !member.certificate.empty()) return;
    throw BadSetting("Username",
                     "is missing: neither a password nor a certificate of its own, by StunnelConfig, tells "
                     "who " +
                         member.deskName() + " is; AllowAnyone=Y takes anyone in");
}

/// A dictionary without fields of data, whose lengths the library believes.
void needDictionary(const std::string &path) {
    const char *const name = "DataDictionary";
    needFile(name, path, R_OK);
    try {
        const FIX::DataDictionary it(path);
        for (int tag = 1; tag <= GREATEST_TAG; tag++)
            if (it.isDataField(tag))
                throw BadSetting(name, "has a field of the type DATA, " + std::to_string(tag) +
                                           ", as edge/FIX44-edge.xml has none: " + path);
    } catch (const FIX::ConfigError &why) {
        throw BadSetting(name, "is none of QuickFIX: " + path + ": " + (why.detail.empty() ? why.what() : why.detail));
    }
}

/// All names of a file of settings are known. Each is told as it is written there: the library holds it in capitals.
void needKnownNames(std::istream &file) {
    for (std::string line; std::getline(file, line);) {
        const std::size_t end = line.find('=');
        const std::string name = FIX::string_strip(line.substr(0, end));
        if (end != std::string::npos && !name.empty() && name[0] != '#' && !isSettingName(FIX::string_toUpper(name)))
            throw BadSetting(name, "is no setting");
    }
}

/// What would drop or shift what a member has to be told, or is the library's way of what the edge does itself.
void refuseOthers(const Dictionary &from) {
    for (const char *name : {"ResetOnLogon", "ResetOnLogout", "ResetOnDisconnect"})
        if (flagOr(from, name, false))
            throw BadSetting(name, "would drop what a member missed: leave it out, or see ResetByMember");
    if (flagOr(from, "RefreshOnLogon", false))
        throw BadSetting("RefreshOnLogon", "would read the record anew in the midst of what is told: leave it out");
    if (!flagOr(from, "PersistMessages", true))
        throw BadSetting("PersistMessages", "has to be Y: it keeps what was missed");
    for (const char *name : {"ValidateLengthAndChecksum", "ValidateFieldsHaveValues"})
        if (!flagOr(from, name, true)) throw BadSetting(name, "has to be Y: no other messages are taken");
    if (from.has("SyncNames")) throw BadSetting("SyncNames", "is always so: leave it out");
    if (from.getString("BeginString") != "FIX.4.4")
        throw BadSetting("BeginString", "isn't FIX.4.4: " + from.getString("BeginString"));
    if (textOf(from, "ConnectionType") != "acceptor") throw BadSetting("ConnectionType", "isn't acceptor");
    needDictionary(textOr(from, "DataDictionary", DICTIONARY));
}

/// The settings for the library alone: it opens its own page at all addresses where HttpAcceptPort is left to it, and
/// empties stores by hours.
FIX::SessionSettings forLibrary(const FIX::SessionID &session, const Dictionary &from) {
    Dictionary it;
    for (const auto &entry : from)
        if (entry.first != "HTTPACCEPTPORT" && !isOfHours(entry.first)) it.setString(entry.first, entry.second);
    if (!it.has("DataDictionary")) it.setString("DataDictionary", DICTIONARY);
    setEndlessHours(it);
    FIX::SessionSettings library;
    library.set(session, it);
    return library;
}

/// What members of one file have of their venues.
void needSameVenues(const Dictionary &common, const Dictionary &session) {
    for (const std::string &name : venueSettings())
        if (session.has(name) && (!common.has(name) || session.getString(name) != common.getString(name)))
            throw BadSetting(name, "is one for all sessions, and belongs to [DEFAULT]");
}

/// Whether a session has a value of its own, and not that of [DEFAULT].
bool isOwn(const Dictionary &common, const Dictionary &session, const std::string &name) {
    return !common.has(name) || session.getString(name) != common.getString(name);
}

/// A member's folder: one of its session as it is, and else a folder of its name in the one of [DEFAULT], which is
/// noted, too.
std::string folderOf(const Dictionary &common, const Dictionary &session, const std::string &name,
                     const std::string &member, std::string &ofAll) {
    const std::string folder = textOf(session, name);
    if (isOwn(common, session, name)) return folder;
    ofAll = folder;
    return folder + "/" + member;
}

/// The port of a member's page: one of its session as it is, and else so far above the one of [DEFAULT] as its port at
/// the venue is above that of C1. Those of sessions of copies come behind that of C8.
int statusPortOf(const Dictionary &common, const Dictionary &session, const MemberSettings &member) {
    const char *const name = "HttpAcceptPort";
    if (!session.has(name)) return 0;
    if (isOwn(common, session, name)) return static_cast<int>(numberOf(session, name, 1, 65535));
    const int before = member.isOfCopies() ? MEMBERS : 0;
    return static_cast<int>(numberOf(session, name, 1, 65536 - MEMBERS - before)) + before + member.number - 1;
}

/// The CompIDs behind a member in a word of DropCopyOf.
std::vector<std::string> compIdsOf(const std::string &word, const std::string &named) {
    std::vector<std::string> compIds;
    for (std::size_t at = 0, end; at <= named.size(); at = end + 1) {
        end = std::min(named.find(',', at), named.size());
        const std::string it = named.substr(at, end - at);
        if (it.empty()) throw BadSetting("DropCopyOf", "has an empty CompID: " + word);
        if (std::count(compIds.begin(), compIds.end(), it)) throw BadSetting("DropCopyOf", "has one twice: " + it);
        compIds.push_back(it);
    }
    return compIds;
}

/// A member with the CompIDs and the folder that its own sessions in the file have; without a CompID where there is none.
CopiedMember ofThisFile(const FIX::SessionSettings &all, const std::string &member) {
    CopiedMember it{member, {}, ""};
    std::map<int, std::string> compIds;
    std::string ofAll;
    for (const FIX::SessionID &session : all.getSessions()) {
        const Dictionary &from = all.get(session);
        if (textOr(from, "Member", "") != member) continue;
        compIds[deskOf(from)] = session.getTargetCompID().getValue();
        it.folder = folderOf(all.get(), from, "EdgePath", member, ofAll);
    }
    for (const auto &desk : compIds) it.compIds.push_back(desk.second);
    return it;
}

/// A member of a word of DropCopyOf, as C1, C1:DESK-A, or C1:DESK-A,DESK-B where it has several desks. Its CompIDs and
/// where its process keeps what it has are those of its own sessions of the file. Without one the word has the CompIDs,
/// that of the first desk in front, and DropCopyPath the rest.
CopiedMember copiedOf(const FIX::SessionSettings &all, const Dictionary &from, const std::string &word) {
    const std::string member = word.substr(0, word.find(':'));
    const std::string named = word.substr(std::min(member.size() + 1, word.size()));
    if (!isMember(member)) throw BadSetting("DropCopyOf", "has what isn't C1 to C8: " + member);
    CopiedMember it = ofThisFile(all, member);
    if (!it.compIds.empty()) {
        if (word != member && named != it.compIdWords())
            throw BadSetting("DropCopyOf", "has " + word + ", and this file has " + member + ":" + it.compIdWords());
        return it;
    }
    if (!from.has("DropCopyPath")) throw BadSetting("DropCopyPath", "is missing: no session of this file is " + member);
    if (named.empty())
        throw BadSetting("DropCopyOf", "has no CompID of " + member + ", as " + member +
                                           ":DESK-A has one: no session of this file is " + member);
    return {member, compIdsOf(word, named), textOf(from, "DropCopyPath") + "/" + member};
}

/// The members whose reports a session is sent; none where it trades itself. What is for who trades has no use there.
std::vector<CopiedMember> copiedBy(const FIX::SessionSettings &all, const Dictionary &from) {
    std::vector<CopiedMember> copied;
    if (all.get().has("Desk")) throw BadSetting("Desk", "is of one session, and belongs to its [SESSION]");
    if (all.get().has("DropCopyOf")) throw BadSetting("DropCopyOf", "is of one session, and belongs to its [SESSION]");
    if (!from.has("DropCopyOf")) {
        for (const char *name : {"DropCopyNames", "DropCopyPath"})
            if (from.has(name) && isOwn(all.get(), from, name))
                throw BadSetting(name, "is for a session with DropCopyOf");
        return copied;
    }
    for (const std::string &word : wordsOf(textOf(from, "DropCopyOf"))) {
        const CopiedMember next = copiedOf(all, from, word);
        for (const CopiedMember &it : copied)
            if (it.name == next.name) throw BadSetting("DropCopyOf", "has one twice: " + next.name);
        copied.push_back(next);
    }
    if (copied.empty()) throw BadSetting("DropCopyOf", "has no member");
    for (const char *name : OF_TRADERS)
        if (from.has(name) && isOwn(all.get(), from, name))
            throw BadSetting(name, "is for members that trade, and not for a session with DropCopyOf");
    return copied;
}

/// An address of a machine, as 127.0.0.1.
std::string addressOf(const Dictionary &from, const std::string &name) {
    const std::string host = textOr(from, name, "127.0.0.1");
    in_addr address;
    if (::inet_pton(AF_INET, host.c_str(), &address) != 1)
        throw BadSetting(name, "is no address, as 127.0.0.1: " + host);
    return host;
}

/// A venue of this letter; empty: there is one, which needs none. All of them may have one program.
void readVenue(const Dictionary &from, const std::string &letter, Settings &into) {
    VenuePlace it;
    it.letter = letter;
    it.host = addressOf(from, "VenueHost" + letter);
    it.port = static_cast<int>(numberOf(from, "VenuePort" + letter, 1, 65536 - MEMBERS));
    it.journal = textOf(from, "VenueJournal" + letter);
    if (from.has("VenueReplay")) throw BadSetting("VenueReplay", "is VenueEvents now, the program venue-events");
    const std::string events = from.has("VenueEvents" + letter) ? "VenueEvents" + letter : "VenueEvents";
    it.events = textOf(from, events);
    needFile(events, it.events, X_OK);
    readTicks(from, it, into);
    into.venues.push_back(it);
}

/// Two venues are two programs with two journals: each has eight ports from its own on.
void needVenuesApart(const VenuePlace &one, const VenuePlace &other) {
    const std::string too = " is that of the venue " + other.letter + ", too";
    if (one.journal == other.journal) throw BadSetting("VenueJournal" + one.letter, one.journal + too);
    if (one.host == other.host && std::abs(one.port - other.port) < MEMBERS)
        throw BadSetting("VenuePort" + one.letter, std::to_string(one.port) +
                                                       " is less than eight from that of the venue " + other.letter +
                                                       ": each member has a port at each venue");
}

/// The letters of Venues, as A B.
std::vector<std::string> lettersOf(const Dictionary &from) {
    const std::vector<std::string> letters = wordsOf(textOf(from, "Venues"));
    for (auto it = letters.begin(); it != letters.end(); ++it) {
        if (!isVenue(*it)) throw BadSetting("Venues", "has what isn't one capital: " + *it);
        if (std::count(letters.begin(), it, *it)) throw BadSetting("Venues", "has one twice: " + *it);
    }
    if (letters.empty()) throw BadSetting("Venues", "has no venue");
    if (letters.size() > MOST_VENUES) throw BadSetting("Venues", "has more than eight");
    return letters;
}

/// Settings of venues have the letters of those that there are, or none where there are no letters.
void needLetters(const Dictionary &from, const std::vector<std::string> &letters) {
    for (const std::string front : OF_VENUES) {
        if (from.has(front) && !letters.empty() && front != "VenueEvents")
            throw BadSetting(
                front, "is of a venue without a letter, and Venues has letters: name it " + front + letters.front());
        for (char letter = 'A'; letter <= 'Z'; letter++) {
            const std::string name = front + letter;
            if (from.has(name) && !std::count(letters.begin(), letters.end(), std::string(1, letter)))
                throw BadSetting(name, std::string("is of the venue ") + letter + ", which Venues doesn't have");
        }
    }
}

void readVenues(const Dictionary &from, Settings &into) {
    const std::vector<std::string> letters = from.has("Venues") ? lettersOf(from) : std::vector<std::string>();
    needLetters(from, letters);
    if (letters.empty()) readVenue(from, "", into);
    for (const std::string &letter : letters) {
        readVenue(from, letter, into);
        for (std::size_t at = 0; at + 1 < into.venues.size(); at++)
            needVenuesApart(into.venues.back(), into.venues[at]);
    }
}

Settings settingsOf(const FIX::SessionSettings &all, const FIX::SessionID &session) {
    const Dictionary &common = all.get(), &from = all.get(session);
    refuseOthers(from);
    Settings it;
    readVenues(from, it);
    it.host = addressOf(from, "SocketAcceptHost");
    it.hours = hoursOf(from);
    it.dayEnds = dayEndsOf(from, it.hours);
    const std::vector<CopiedMember> copied = copiedBy(all, from);
    it.member = memberOf(session, from);
    it.member.copied = copied;
    if (it.member.isOfCopies()) it.member.market.isOpen = it.member.limits.cancelOnDisconnect = false;
    else it.member.limits.orders = orderLimitsOf(from, it.ticks, it.member.name());
    readIdentity(from, it);
    const std::string name = it.member.name();
    it.folder = folderOf(common, from, "EdgePath", name, it.ofAll.edge);
    if (from.has("FileStorePath")) it.storeFolder = folderOf(common, from, "FileStorePath", name, it.ofAll.store);
    it.logFolder = folderOf(common, from, "FileLogPath", name, it.ofAll.log);
    it.statusPort = statusPortOf(common, from, it.member);
    it.diskReserve = static_cast<std::uint64_t>(numberOr(from, "DiskReserve", 0, 1L << 40, 16 << 20));
    it.folderBytes = static_cast<std::uint64_t>(numberOr(from, "MaxFolderBytes", 1 << 20, 1L << 50, 1L << 32));
    it.log.bytes = static_cast<std::size_t>(numberOr(from, "MaxLogBytes", 65536, 1L << 40, 64 << 20));
    it.log.files = static_cast<int>(numberOr(from, "MaxLogFiles", 1, 1000, 8));
    it.library = forLibrary(session, from);
    needSameSteps(it);
    return it;
}

/// Whose desks a group of sessions are, by the numbers of these: what a member has is the same for all of them.
void needOneMember(const FIX::SessionSettings &all, const std::vector<Settings> &sessions) {
    const Settings &first = sessions.front();
    const std::string name = first.member.name();
    for (const Settings &it : sessions) {
        if (&it == &first) continue;
        if (it.member.desk == FIRST_DESK) throw BadSetting("Member", "has two sessions: " + name);
        const Settings &before = *(&it - 1);
        if (it.member.desk == before.member.desk)
            throw BadSetting("Desk", "is that of two sessions: " + it.member.deskName());
        const Dictionary &own = all.get(it.member.session), &other = all.get(first.member.session);
        for (const char *setting : OF_MEMBERS)
            if (own.has(setting) != other.has(setting) ||
                (own.has(setting) && own.getString(setting) != other.getString(setting)))
                throw BadSetting(setting, "is another one for " + it.member.deskName() + " than for " + name +
                                              ", and is one for all desks of a member");
    }
    if (first.member.desk != FIRST_DESK)
        throw BadSetting("Desk",
                         "is " + std::to_string(first.member.desk) + ", and no session is the first desk of " + name);
}

/// The settings of members, by their names, out of those of all sessions of a file.
std::vector<Settings> joined(const FIX::SessionSettings &all, std::vector<Settings> sessions) {
    std::sort(sessions.begin(), sessions.end(), [](const Settings &one, const Settings &other) {
        return std::make_pair(one.member.name(), one.member.desk) <
               std::make_pair(other.member.name(), other.member.desk);
    });
    std::vector<Settings> members;
    for (auto at = sessions.begin(); at != sessions.end();) {
        const std::string name = at->member.name();
        const auto end =
            std::find_if(at, sessions.end(), [&name](const Settings &it) { return it.member.name() != name; });
        const std::vector<Settings> its(at, end);
        needOneMember(all, its);
        members.push_back(its.front());
        members.back().desks.assign(std::next(its.begin()), its.end());
        at = end;
    }
    return members;
}

/// A file that has the name of a member is that member's, as the service of this name has it.
void needItsName(const std::string &path, const std::string &member) {
    const std::string file = path.substr(path.rfind('/') + 1), name = file.substr(0, file.find('.'));
    if (isMember(name) && file == name + ".cfg" && isMember(member) && name != member)
        throw BadSetting("Member", "is " + member + ", and the file " + file + " is that of " + name);
}

/// What a settings file has, as the library reads it.
FIX::SessionSettings sectionsOf(const std::string &path) {
    std::ifstream file(path);
    if (!file) throw BadSetting(path, "can't be read");
    try {
        needKnownNames(file);
        file.clear();
        file.seekg(0);
        FIX::SessionSettings all;
        file >> all;
        const std::set<FIX::SessionID> sessions = all.getSessions();
        if (sessions.empty()) throw BadSetting("[SESSION]", "is missing");
        for (const FIX::SessionID &session : sessions)
            if (sessions.size() > 1) needSameVenues(all.get(), all.get(session));
        return all;
    } catch (const FIX::ConfigError &why) {
        throw BadSetting(path, why.detail.empty() ? why.what() : why.detail);
    }
}

}

std::string CopiedMember::compIdWords() const {
    std::string words;
    for (const std::string &it : compIds) words += (words.empty() ? "" : ",") + it;
    return words;
}

bool isSymbol(const std::string &it) {
    return !it.empty() && it.size() <= 8 &&
           it.find_first_not_of("ABCDEFGHIJKLMNOPQRSTUVWXYZ0123456789") == std::string::npos;
}

bool isVenue(const std::string &it) {
    return it.size() == 1 && it[0] >= 'A' && it[0] <= 'Z';
}

bool isMember(const std::string &it) {
    return it.size() == 2 && it[0] == 'C' && it[1] >= '1' && it[1] <= '0' + MEMBERS;
}

bool isOfCopies(const std::string &it) {
    return it.size() == 2 && it[0] == 'D' && it[1] >= '1' && it[1] <= '0' + MEMBERS;
}

std::vector<MemberFolder> readFolders(const std::string &path) {
    const FIX::SessionSettings all = sectionsOf(path);
    std::vector<MemberFolder> folders;
    std::string ofAll;
    for (const FIX::SessionID &session : all.getSessions()) {
        const std::string member = textOf(all.get(session), "Member");
        if (std::atoi(textOr(all.get(session), "Desk", "1").c_str()) != FIRST_DESK) continue;  // It has no process.
        folders.push_back({member, folderOf(all.get(), all.get(session), "EdgePath", member, ofAll), path});
    }
    std::sort(folders.begin(), folders.end(),
              [](const MemberFolder &one, const MemberFolder &other) { return one.member < other.member; });
    return folders;
}

std::vector<FIX::Dictionary> readPlain(const std::string &path) {
    const FIX::SessionSettings all = sectionsOf(path);
    std::vector<FIX::Dictionary> found;
    for (const FIX::SessionID &session : all.getSessions()) {
        found.push_back(all.get(session));
        if (textOr(found.back(), "Member", "") != textOr(found.front(), "Member", ""))
            throw BadSetting("[SESSION]", "there are " + std::to_string(all.getSessions().size()));
    }
    return found;
}

std::vector<Settings> readAll(const std::string &path) {
    const FIX::SessionSettings all = sectionsOf(path);
    std::vector<Settings> sessions;
    for (const FIX::SessionID &session : all.getSessions()) sessions.push_back(settingsOf(all, session));
    const std::vector<Settings> members = joined(all, sessions);
    needApart(members);
    return members;
}

Settings readOne(const std::string &path, const std::string &member) {
    const FIX::SessionSettings all = sectionsOf(path);
    const std::set<FIX::SessionID> sessions = all.getSessions();
    const auto memberOf = [&all](const FIX::SessionID &it) { return textOr(all.get(it), "Member", ""); };
    std::vector<FIX::SessionID> chosen;
    for (const FIX::SessionID &session : sessions)
        if (member.empty() || memberOf(session) == member) chosen.push_back(session);
    if (chosen.empty()) throw BadSetting("Member", "no session has " + member);
    const auto isOne = [&](const FIX::SessionID &it) { return memberOf(it) == memberOf(chosen[0]); };
    const auto hasDesk = [&](const FIX::SessionID &it) { return all.get(it).has("Desk"); };
    const bool areDesks = chosen.size() == 1 || !member.empty() || std::any_of(chosen.begin(), chosen.end(), hasDesk);
    if (!areDesks || !std::all_of(chosen.begin(), chosen.end(), isOne))
        throw BadSetting("[SESSION]", "there are " + std::to_string(chosen.size()) +
                                          ": --all serves all of them, and --member C1 the one of C1");
    if (sessions.size() == chosen.size()) needItsName(path, textOf(all.get(chosen[0]), "Member"));
    std::vector<Settings> desks;
    for (const FIX::SessionID &it : chosen) desks.push_back(settingsOf(all, it));
    const std::vector<Settings> members = joined(all, desks);
    needDesksApart(members.front());
    return members.front();
}

}
