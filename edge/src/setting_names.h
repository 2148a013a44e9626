#pragma once

#include <set>
#include <string>
#include <vector>

namespace edge {

/// What a setting of a venue is called in front of the letter of that.
constexpr const char *OF_VENUES[] = {"VenueHost", "VenuePort", "VenueJournal", "VenueEvents", "Symbols"};

/// The names of all settings of venues: Venues, and each of the others without a letter and with each letter.
inline std::vector<std::string> venueSettings() {
    std::vector<std::string> names{"Venues"};
    for (const char *const front : OF_VENUES) {
        names.push_back(front);
        for (char letter = 'A'; letter <= 'Z'; letter++) names.push_back(front + std::string(1, letter));
    }
    return names;
}

/// Whether a setting of this name is known, as the library holds names: in capitals. One that is misspelled would be
/// passed over else.
inline bool isSettingName(const std::string &name) {
    static const std::set<std::string> names{
        // The library's, of sessions that accept.
        "ALLOWUNKNOWNMSGFIELDS", "BEGINSTRING", "CHECKCOMPID", "CHECKLATENCY", "CONNECTIONTYPE", "DATADICTIONARY",
        "ENDDAY", "ENDTIME", "FILELOGPATH", "FILESTOREPATH", "LOGONDAY", "LOGONTIME", "LOGONTIMEOUT", "LOGOUTDAY",
        "LOGOUTTIME", "LOGOUTTIMEOUT", "MAXLATENCY", "MILLISECONDSINTIMESTAMP", "PERSISTMESSAGES", "REFRESHONLOGON",
        "RESETONDISCONNECT", "RESETONLOGON", "RESETONLOGOUT", "SENDERCOMPID", "SENDREDUNDANTRESENDREQUESTS",
        "SOCKETACCEPTPORT", "STARTDAY", "STARTTIME", "TARGETCOMPID", "TIMESTAMPPRECISION", "USEDATADICTIONARY",
        "USELOCALTIME", "VALIDATEFIELDSHAVEVALUES", "VALIDATEFIELDSOUTOFORDER", "VALIDATELENGTHANDCHECKSUM",
        "VALIDATEUSERDEFINEDFIELDS",
        // The edge's own.
        "ALLOWANYONE", "CANCELONDISCONNECT", "DAYENDTIME", "DESK", "DISKRESERVE", "DROPCOPYNAMES", "DROPCOPYOF", "DROPCOPYPATH", "DROPFIELDS", "EDGEPATH", "FIRM",
        "HTTPACCEPTPORT", "LASTCAPACITY", "MARKETDATA", "MARKETDATAINTERVAL", "MAXFOLDERBYTES", "MAXLOGBYTES",
        "MAXLOGFILES", "MAXMESSAGEBYTES", "MAXMESSAGESPERSECOND", "MAXOPENORDERS", "MAXOPENVALUE", "MAXORDERQUANTITY",
        "MAXORDERVALUE", "MAXREADBYTESPERSECOND", "MAXREADMESSAGESPERSECOND", "MAXREQUESTSUNDERWAY", "MAXUNSENTBYTES",
        "MEMBER", "MEMBERMAXMESSAGESPERSECOND", "MEMBERMAXOPENORDERS", "MEMBERMAXOPENVALUE", "ONLYCLOSING", "PASSWORDFILE", "PRICECOLLAR", "REFERENCEPRICES", "RESETBYMEMBER", "SELFTRADE",
        "SOCKETACCEPTHOST", "STUNNELCONFIG", "SYMBOLS", "SYNCNAMES", "TRADESYMBOLS", "USERNAME", "VENUEEVENTS",
        "VENUEHOST", "VENUEJOURNAL", "VENUEPORT", "VENUEREPLAY", "VENUES"};
    static const std::set<std::string> ofVenues{"SYMBOLS", "VENUEEVENTS", "VENUEHOST", "VENUEJOURNAL", "VENUEPORT"};
    const bool hasLetter = !name.empty() && name.back() >= 'A' && name.back() <= 'Z';
    return names.count(name) || (hasLetter && ofVenues.count(name.substr(0, name.size() - 1)));
}

}
