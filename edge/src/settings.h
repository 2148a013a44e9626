#pragma once

#include <quickfix/SessionSettings.h>

#include <cstdint>
#include <map>
#include <set>
#include <stdexcept>
#include <string>
#include <vector>

#include "desk_names.h"
#include "log.h"
#include "order_limits.h"
#include "schedule.h"
#include "ticks.h"
#include "venue_place.h"

namespace edge {

/// A setting that is missing or wrong: its name, and what is wrong with it.
class BadSetting : public std::runtime_error {
public:
    BadSetting(const std::string &name, const std::string &why) : std::runtime_error(name + ": " + why) {}
};

/// What a member may do, and what becomes of what it sends.
struct Limits {
    int messagesPerSecond, openOrders;        // 0: no limit.
    int membersPerSecond, membersOpenOrders;  // The same of all desks of the member together.
    std::size_t messageBytes, unsentBytes;
    std::size_t readMessages, readBytes;  // Of all types, in a second; 0: no bound.
    std::size_t underWay;                 // Requests that the venue hasn't answered.
    bool cancelOnDisconnect, mayReset;
    std::set<int> dropped;     // Fields of orders that the venue doesn't have, and that are left out in silence.
    std::string lastCapacity;  // What LastCapacity (29) of a fill says; empty: it isn't there.
    OrderLimits orders;
};

/// Whether a member may ask for the market, and how often it is told of that: behind so many milliseconds at least.
struct MarketSettings {
    bool isOpen;
    int interval;
};

/// A member whose reports are copied, the CompIDs of its desks at the edge, and where its process keeps what it has.
struct CopiedMember {
    std::string name;
    std::vector<std::string> compIds;  // That of its first desk is in front.
    std::string folder;

    /// The CompIDs with commas, as DropCopyOf has them.
    std::string compIdWords() const;
};

/// How a copy says whose report it is: by a party, by OnBehalfOfCompID (115), or by DeliverToCompID (128).
enum class CopyNames { Parties, OnBehalfOf, DeliverTo };

/// A member of the venue, and the session that one of its desks has at the edge; or a session that is sent copies of
/// what members are told, and that trades nothing.
struct MemberSettings {
    int number;  // k of Ck, or of Dk.
    FIX::SessionID session;
    int port;                        // Where it connects to.
    std::string username, password;  // Empty: none is asked for.
    std::string certificate;         // The one that its stunnel takes; empty: none that is known.
    Limits limits;
    MarketSettings market;
    std::vector<CopiedMember> copied;  // None: it is a member of the venue.
    CopyNames copyNames = CopyNames::Parties;
    int desk = FIRST_DESK;
    bool takesAnyone = false;  // Nothing has to tell who it is.

    bool isOfCopies() const { return !copied.empty(); }
    std::string name() const { return (isOfCopies() ? "D" : "C") + std::to_string(number); }

    /// The name of its desk, as C1 or C1.2.
    std::string deskName() const { return edge::deskName(name(), desk); }
};

/// The folders of names, store and log.
struct Folders {
    std::string edge, store, log;
};

/// The most venues that one edge stands in front of.
constexpr std::size_t MOST_VENUES = 8;

/// All settings of the process of one member, read and looked through: for the session of its first desk, and beside
/// that those for each other one. What belongs to the member itself is the same in all of them.
struct Settings {
    FIX::SessionSettings library;  // For QuickFIX, of this session alone, without what is the edge's own.
    std::vector<VenuePlace> venues;       // One at least, and without a letter where the settings give none.
    std::map<std::string, Tick> ticks;    // Of the symbols of all venues.
    std::string host, folder, logFolder;  // The folders are this member's alone.
    std::string storeFolder;              // Of an edge of before, and this member's alone; empty: there is none.
    Folders ofAll;              // The folders of all members that these lie in; empty: a folder isn't in such a one.
    int statusPort;             // 0: no page.
    std::uint64_t diskReserve;  // Bytes that have to be free for a new order to be taken.
    LogBounds log;              // Of messages, and as much of events.
    std::uint64_t folderBytes;  // As many bytes in the folders are the most with which a new order is taken.
    Schedule hours, dayEnds;    // When the member's session begins and ends, and when what is Day does.
    MemberSettings member;
    std::vector<Settings> desks;  // The other desks, by their numbers.

    /// The symbols of all venues, in the order of these and of each venue's own.
    std::vector<std::string> symbols() const {
        std::vector<std::string> all;
        for (const VenuePlace &it : venues) all.insert(all.end(), it.symbols.begin(), it.symbols.end());
        return all;
    }

    /// The sessions of all desks.
    std::vector<const MemberSettings *> sessions() const {
        std::vector<const MemberSettings *> all{&member};
        for (const Settings &it : desks) all.push_back(&it.member);
        return all;
    }
};

/// Where the process of a member keeps what it has.
struct MemberFolder {
    std::string member, folder;
    std::string settings;  // The file that says so.
};

/// Whether a symbol, a venue, a member or a session of copies may have this name: 1 to 8 capitals and digits, one
/// capital, C1 to C8, and D1 to D8.
bool isSymbol(const std::string &it);
bool isVenue(const std::string &it);
bool isMember(const std::string &it);
bool isOfCopies(const std::string &it);

/// The folders of the members of a file, whatever else its settings say.
std::vector<MemberFolder> readFolders(const std::string &path);

/// What the sessions of a file of one member have, as it stands there, whatever else is wrong in it; a BadSetting where
/// it has several members.
std::vector<FIX::Dictionary> readPlain(const std::string &path);

/// Reads the settings of each member of a file. What is wrong in them, or keeps the members from being served side by
/// side, is a BadSetting with the name of the setting.
std::vector<Settings> readAll(const std::string &path);

/// Reads the settings of this member, as C1, out of a file; without a name the file has to have one member. A file of
/// one member that is called C1.cfg is of that member, so that a service is none of another one.
Settings readOne(const std::string &path, const std::string &member);

}
