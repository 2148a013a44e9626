#include "steps.h"

#include <algorithm>
#include <fstream>
#include <sstream>

#include "files.h"
#include "lines.h"

namespace edge {

namespace {

/// The file of a venue's one line, as ABC:0.01 XYZ:1, beside the member's record.
std::string pathOf(const Settings &settings, const std::string &letter) {
    return settings.folder + "/" + settings.member.name() + (letter.empty() ? "" : "." + letter) + ".symbols";
}

std::string lineOf(const Settings &settings, const VenuePlace &venue) {
    std::string line;
    for (const std::string &symbol : venue.symbols)
        line += (line.empty() ? "" : " ") + symbol + ":" + settings.ticks.at(symbol).text();
    return line;
}

/// What differs between the kept line and the settings, in words.
std::string differenceOf(const std::string &kept, const Settings &settings) {
    std::istringstream from(kept);
    for (std::string word; from >> word;) {
        const std::string symbol = word.substr(0, word.find(':'));
        const std::string step = symbol.size() < word.size() ? word.substr(symbol.size() + 1) : "";
        const auto now = settings.ticks.find(symbol);
        if (now == settings.ticks.end()) return "have no " + symbol + ", whose step was " + step;
        if (now->second.text() != step) return "have " + symbol + ":" + now->second.text() + ", whose step was " + step;
    }
    return "are others, or in another order, than they were: " + shown(kept);
}

/// The first line of a file, or nothing.
std::string lineIn(const std::string &path) {
    std::ifstream file(path);
    std::string line;
    std::getline(file, line);
    return line;
}

/// Where the line of a venue stands. That of a member who had one venue is of the one that it names.
std::string placeOf(const Settings &settings, const VenuePlace &venue) {
    const auto hasFile = [&settings](const VenuePlace &it) { return isThere(pathOf(settings, it.letter)); };
    const bool isOfBefore = std::none_of(settings.venues.begin(), settings.venues.end(), hasFile);
    return pathOf(settings, isOfBefore && venue.letter == firstVenue(settings) ? "" : venue.letter);
}

/// A venue that the settings don't have any more has kept its symbols: at another one they would begin anew, with all
/// that the journal tells.
void needNoOthers(const Settings &settings) {
    if (settings.venues.front().letter.empty()) return;
    for (char letter = 'A'; letter <= 'Z'; letter++) {
        const std::string path = pathOf(settings, std::string(1, letter));
        const auto isThis = [letter](const VenuePlace &it) { return it.letter[0] == letter; };
        if (std::any_of(settings.venues.begin(), settings.venues.end(), isThis) || !isThere(path)) continue;
        std::istringstream from(lineIn(path));
        for (std::string word; from >> word;) {
            const std::string symbol = word.substr(0, word.find(':'));
            if (settings.ticks.count(symbol))
                throw BadSetting("Venues", std::string("lack ") + letter + ", where " + symbol + " was traded (" + path +
                                               "): its reports would be told once more");
        }
    }
}

/// Whether the member was served before at this venue, with these symbols and steps.
bool areKept(const Settings &settings, const VenuePlace &venue) {
    const std::string path = placeOf(settings, venue), setting = "Symbols" + venue.letter;
    if (!isThere(path)) return false;
    std::ifstream file(path);
    std::string kept;
    if (!std::getline(file, kept)) throw BadSetting(setting, "what they were can't be read: " + path);
    if (kept != lineOf(settings, venue))
        throw BadSetting(
            setting, differenceOf(kept, settings) + " (" + path + "): what rests in the book would have other prices");
    return path == pathOf(settings, venue.letter);
}

}

std::string firstVenue(const Settings &settings) {
    const std::string kept = lineIn(pathOf(settings, ""));
    for (const VenuePlace &it : settings.venues)
        if (lineOf(settings, it) == kept) return it.letter;
    return settings.venues.front().letter;
}

void needSameSteps(const Settings &settings) {
    needNoOthers(settings);
    for (const VenuePlace &it : settings.venues) areKept(settings, it);
}

void keepSteps(const Settings &settings) {
    for (const VenuePlace &it : settings.venues)
        if (!areKept(settings, it)) writeWhole(pathOf(settings, it.letter), lineOf(settings, it) + "\n");
}

}
