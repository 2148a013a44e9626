#include "settings.h"

#include <sys/stat.h>
#include <unistd.h>

#include <algorithm>
#include <fstream>
#include <map>
#include <set>
#include <sstream>

namespace feed {

namespace {

constexpr std::size_t MOST_SERVERS = 16, MOST_SYMBOLS = 8, LONGEST_NAME = 32, LONGEST_SYMBOL = 8;
constexpr long MOST = 1000000000000000;
const std::set<std::string> NAMES{"VenueJournal", "VenueEvents",  "Symbols",  "Members",       "FeedName", "Servers",
                                  "Username",     "PasswordFile", "CaFile",   "Replicas",      "MaxAge",   "MaxBytes",
                                  "BookDepth",    "BookInterval", "TakeOver", "HttpAcceptPort"};
const char *const CAPITALS = "ABCDEFGHIJKLMNOPQRSTUVWXYZ0123456789";
const char *const OF_A_NAME = "ABCDEFGHIJKLMNOPQRSTUVWXYZabcdefghijklmnopqrstuvwxyz0123456789-_";

std::string trimmed(const std::string &text) {
    const std::size_t from = text.find_first_not_of(" \t\r"), to = text.find_last_not_of(" \t\r");
    return from == std::string::npos ? "" : text.substr(from, to + 1 - from);
}

std::vector<std::string> wordsOf(const std::string &text) {
    std::istringstream from(text);
    std::vector<std::string> words;
    for (std::string word; from >> word;) words.push_back(word);
    return words;
}

/// The lines NAME=VALUE of a file.
class Lines {
public:
    explicit Lines(const std::string &path) {
        std::ifstream file(path);
        if (!file) throw std::runtime_error("can't read the settings: " + path);
        for (std::string line; std::getline(file, line);) take(trimmed(line));
    }

    bool has(const std::string &name) const { return values_.count(name); }

    std::string text(const std::string &name) const {
        if (!has(name)) throw BadSetting(name, "is missing");
        if (values_.at(name).empty()) throw BadSetting(name, "is empty");
        return values_.at(name);
    }

    long number(const std::string &name, long least, long most, long other) const {
        if (!has(name)) return other;
        const std::string value = text(name);
        if (value.size() > 15 || value.find_first_not_of("0123456789") != std::string::npos)
            throw BadSetting(name, "is no number: " + value);
        const long it = std::stol(value);
        if (it < least || it > most)
            throw BadSetting(name, "isn't " + std::to_string(least) + " to " + std::to_string(most) + ": " + value);
        return it;
    }

private:
    void take(const std::string &line) {
        if (line.empty() || line[0] == '#') return;
        const std::size_t at = line.find('=');
        const std::string name = trimmed(line.substr(0, at));
        if (at == std::string::npos || !NAMES.count(name)) throw BadSetting(name, "is no setting");
        if (!values_.emplace(name, trimmed(line.substr(at + 1))).second) throw BadSetting(name, "stands there twice");
    }

    std::map<std::string, std::string> values_;
};

std::string fileOf(const Lines &from, const std::string &name, int mode) {
    const std::string path = from.text(name);
    if (::access(path.c_str(), mode)) throw BadSetting(name, "can't be used: " + path);
    return path;
}

std::vector<std::string> symbolsOf(const Lines &from) {
    const std::vector<std::string> symbols = wordsOf(from.text("Symbols"));
    for (const std::string &it : symbols) {
        if (it.size() > LONGEST_SYMBOL || it.find_first_not_of(CAPITALS) != std::string::npos)
            throw BadSetting("Symbols", "has what is no symbol: " + it);
        if (std::count(symbols.begin(), symbols.end(), it) > 1) throw BadSetting("Symbols", "has one twice: " + it);
    }
    if (symbols.size() > MOST_SYMBOLS) throw BadSetting("Symbols", "has more than eight");
    return symbols;
}

bool isUrl(const std::string &it, const std::string &front) {
    return it.size() > front.size() && !it.compare(0, front.size(), front);
}

std::vector<std::string> serversOf(const Lines &from) {
    const std::vector<std::string> servers = wordsOf(from.text("Servers"));
    for (const std::string &it : servers) {
        if (!isUrl(it, "nats://") && !isUrl(it, "tls://"))
            throw BadSetting("Servers", "isn't of URLs, as tls://10.0.0.1:4222: " + it);
        if (it.find('@') != std::string::npos)
            throw BadSetting("Servers", "has a user in it, for which there are Username and PasswordFile");
    }
    if (servers.size() > MOST_SERVERS) throw BadSetting("Servers", "has more than sixteen");
    return servers;
}

/// The password of a user, of a file of lines USER:PASSWORD that its owner alone may read.
std::string passwordOf(const std::string &path, const std::string &user) {
    struct stat it;
    std::ifstream file(path);
    if (::stat(path.c_str(), &it) || !file) throw BadSetting("PasswordFile", "can't be read: " + path);
    if (it.st_mode & 077) throw BadSetting("PasswordFile", "may be used by others than its owner: chmod 0600 " + path);
    for (std::string line; std::getline(file, line);)
        if (line.compare(0, user.size() + 1, user + ":") == 0 && line.size() > user.size() + 1)
            return line.substr(user.size() + 1);
    throw BadSetting("Username", "has no line in " + path + ": " + user);
}

Access accessOf(const Lines &from) {
    Access it;
    it.servers = serversOf(from);
    if (from.has("Username") != from.has("PasswordFile"))
        throw BadSetting(from.has("Username") ? "PasswordFile" : "Username", "is missing beside the other of the two");
    if (from.has("Username")) {
        it.user = from.text("Username");
        it.password = passwordOf(from.text("PasswordFile"), it.user);
    }
    const bool isSafe =
        std::any_of(it.servers.begin(), it.servers.end(), [](const std::string &url) { return isUrl(url, "tls://"); });
    if (isSafe || from.has("CaFile")) it.authority = fileOf(from, "CaFile", R_OK);
    return it;
}

Bounds boundsOf(const Lines &from) {
    const Bounds it{static_cast<int>(from.number("Replicas", 1, 5, 3)), from.number("MaxAge", 0, 1000000000, 0),
                    from.number("MaxBytes", 0, MOST, 0)};
    if (it.replicas % 2 == 0) throw BadSetting("Replicas", "isn't 1, 3 or 5: " + from.text("Replicas"));
    return it;
}

std::string nameOf(const Lines &from) {
    const std::string name = from.text("FeedName");
    if (name.size() > LONGEST_NAME || name.find_first_not_of(OF_A_NAME) != std::string::npos)
        throw BadSetting("FeedName", "isn't of up to 32 letters, digits, - and _: " + name);
    return name;
}

}

Settings readSettings(const std::string &path) {
    const Lines from(path);
    Settings it;
    it.venue = {0, from.text("VenueJournal"), fileOf(from, "VenueEvents", X_OK), symbolsOf(from)};
    it.members = static_cast<int>(from.number("Members", 0, 8, 8));
    it.name = nameOf(from);
    it.access = accessOf(from);
    it.bounds = boundsOf(from);
    it.depth = static_cast<std::size_t>(from.number("BookDepth", 1, 50, 10));
    it.bookInterval = std::chrono::milliseconds(from.number("BookInterval", 10, 60000, 100));
    it.takeOver = std::chrono::milliseconds(from.number("TakeOver", 200, 600000, 1000));
    it.page = static_cast<int>(from.number("HttpAcceptPort", 1, 65535, 0));
    return it;
}

}
