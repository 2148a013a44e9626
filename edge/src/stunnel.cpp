#include "stunnel.h"

#include <algorithm>
#include <cctype>
#include <map>
#include <set>
#include <sstream>

namespace edge {

namespace {

using Options = std::map<std::string, std::string>;

// Options that let nobody in, by their names in small letters. Another one may: PSKsecrets, CApath, verify, include ..
const std::set<std::string> OF_ALL{"chroot",         "debug",         "fips",   "foreground",  "log",
                                   "output",         "pid",           "setgid", "setuid",      "sslversion",
                                   "sslversionmax",  "sslversionmin", "syslog", "timeoutbusy", "timeoutclose",
                                   "timeoutconnect", "timeoutidle"};
const std::set<std::string> OF_SERVICE{
    "accept",       "cafile",         "cert",        "connect",       "crlfile",       "debug",
    "key",          "requirecert",    "sslversion",  "sslversionmax", "sslversionmin", "timeoutbusy",
    "timeoutclose", "timeoutconnect", "timeoutidle", "verifychain",   "verifypeer"};

std::string small(std::string text) {
    std::transform(text.begin(), text.end(), text.begin(),
                   [](unsigned char it) { return static_cast<char>(std::tolower(it)); });
    return text;
}

std::string trimmed(const std::string &text) {
    const char *const blanks = " \t\r";
    const std::size_t from = text.find_first_not_of(blanks);
    return from == std::string::npos ? "" : text.substr(from, text.find_last_not_of(blanks) + 1 - from);
}

/// Notes an option of a line, as "connect = 127.0.0.1:9801".
void note(const std::string &line, const std::set<std::string> &known, Options &into) {
    const std::size_t equals = line.find('=');
    if (equals == std::string::npos) throw BadService("a line is no option: " + line);
    const std::string name = trimmed(line.substr(0, equals));
    if (!known.count(small(name))) throw BadService(name + " may let others in, or stands in the wrong place");
    if (!into.emplace(small(name), trimmed(line.substr(equals + 1))).second)
        throw BadService(name + " stands there twice");
}

bool isYes(const Options &options, const std::string &name) {
    const auto found = options.find(name);
    return found != options.end() && small(found->second) == "yes";
}

std::string valueOf(const Options &options, const std::string &name) {
    const auto found = options.find(name);
    return found == options.end() ? "" : found->second;
}

}

StunnelService serviceOf(const std::string &configuration) {
    Options ofAll, service;
    std::size_t services = 0;
    std::istringstream lines(configuration);
    for (std::string line; std::getline(lines, line);) {
        line = trimmed(line);
        if (line.empty() || line[0] == ';' || line[0] == '#') continue;
        if (line[0] == '[') services++;
        else if (services) note(line, OF_SERVICE, service);
        else note(line, OF_ALL, ofAll);
        if (services > 1) throw BadService("it has more than one service");
    }
    if (!services) throw BadService("it has no service");
    if (!isYes(service, "verifypeer")) throw BadService("verifyPeer isn't yes");
    if (service.count("requirecert") && !isYes(service, "requirecert")) throw BadService("requireCert isn't yes");
    return StunnelService{valueOf(service, "connect"), valueOf(service, "cafile")};
}

std::string onlyCertificate(const std::string &pem) {
    const std::string begin = "-----BEGIN CERTIFICATE-----", end = "-----END CERTIFICATE-----";
    std::string body;
    int parts = 0;
    bool isWithin = false, isWhole = false;
    std::istringstream lines(pem);
    for (std::string line; std::getline(lines, line);) {
        line = trimmed(line);
        if (!line.compare(0, 10, "-----BEGIN")) {
            if (line != begin) throw BadService("has something else than certificates: " + line);
            isWithin = true;
            parts++;
        } else if (line == end) {
            isWhole = isWithin;
            isWithin = false;
        } else if (isWithin) {
            body += line;
        }
    }
    if (parts != 1) throw BadService("has " + std::to_string(parts) + " certificates, and not one");
    if (!isWhole || isWithin || body.empty()) throw BadService("has a certificate that isn't whole");
    return body;
}

}
