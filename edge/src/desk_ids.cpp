#include "desk_ids.h"

#include <algorithm>
#include <cstdlib>
#include <fstream>
#include <map>
#include <string>

#include "files.h"

namespace edge {

namespace {

const char *const SETTING = "Desk";

using CompIds = std::map<int, std::string>;  // By the numbers of the desks.

/// The file of a line for each desk, as 2 DESK-B, beside the member's record.
std::string pathOf(const Settings &settings) {
    return settings.folder + "/" + settings.member.name() + ".desks";
}

CompIds ofSettings(const Settings &settings) {
    CompIds all;
    for (const MemberSettings *it : settings.sessions()) all[it->desk] = it->session.getTargetCompID().getValue();
    return all;
}

/// What the file has; nothing where there is none.
CompIds keptOf(const std::string &path) {
    CompIds all;
    if (!isThere(path)) return all;
    std::ifstream file(path);
    for (std::string line; std::getline(file, line);) {
        const int desk = std::atoi(line.c_str());
        const std::string compId = line.substr(std::min(line.size(), std::size_t(2)));
        if (desk < FIRST_DESK || desk > MOST_DESKS || line[1] != ' ' || compId.empty())
            throw BadSetting(SETTING, "which CompIDs they had can't be read: " + path);
        all[desk] = compId;
    }
    if (all.empty()) throw BadSetting(SETTING, "which CompIDs they had can't be read: " + path);
    return all;
}

/// The desk that has this CompID, or 0.
int deskOf(const CompIds &all, const std::string &compId) {
    for (const auto &it : all)
        if (it.second == compId) return it.first;
    return 0;
}

/// The CompIDs that are to be kept: those of the settings, and of desks that these don't have any more.
CompIds joined(const Settings &settings) {
    const std::string path = pathOf(settings);
    CompIds all = keptOf(path);
    const CompIds now = ofSettings(settings);
    const bool isOfOne = now.size() == 1 && all.size() <= 1;
    for (const auto &it : now) {
        const auto before = all.find(it.first);
        const int other = deskOf(all, it.second);
        const std::string is = "is " + std::to_string(it.first) + " for " + it.second + ", and ";
        if (before != all.end() && before->second != it.second && !isOfOne)
            throw BadSetting(SETTING, is + "was that of " + before->second + " (" + path +
                                          "): its engine would be sent what another desk was told");
        if (other && other != it.first)
            throw BadSetting(SETTING, is + "was " + std::to_string(other) + " (" + path +
                                          "): its engine would miss what it was told there");
    }
    for (const auto &it : now) all[it.first] = it.second;
    return all;
}

}

void needSameDesks(const Settings &settings) {
    if (!settings.member.isOfCopies()) joined(settings);
}

void keepDesks(const Settings &settings) {
    if (settings.member.isOfCopies()) return;
    const CompIds all = joined(settings);
    if (all == keptOf(pathOf(settings))) return;
    std::string lines;
    for (const auto &it : all) lines += std::to_string(it.first) + " " + it.second + "\n";
    writeWhole(pathOf(settings), lines);
}

}
