#include "logons.h"

#include <quickfix/FixFieldNumbers.h>

#include <cstdlib>

namespace edge {

namespace {

constexpr int LEAST_BEAT = 5, MOST_BEAT = 60;  // Of HeartBtInt, in seconds.

/// Compares in a time that doesn't tell where they differ.
bool isSame(const std::string &one, const std::string &other) {
    unsigned char differs = one.size() != other.size();
    for (std::size_t at = 0; at < one.size() && at < other.size(); at++)
        differs = static_cast<unsigned char>(differs | (one[at] ^ other[at]));
    return !differs;
}

}

std::string faultOf(const std::string &username, const std::string &password) {
    if (username.empty()) return "Username (553) is missing";
    return password.empty() ? "Password (554) is missing" : "Username (553) or Password (554) is wrong";
}

bool Logons::knows(const std::string &username, const std::string &password) const {
    return member_.username.empty() || (isSame(username, member_.username) && isSame(password, member_.password));
}

std::string Logons::refusalOf(const Judged &logon) const {
    const std::string username = logon.text(FIX::FIELD::Username), password = logon.text(FIX::FIELD::Password);
    if (!knows(username, password)) return faultOf(username, password);
    const std::string heartbeat = logon.text(FIX::FIELD::HeartBtInt);
    const int beat = std::atoi(heartbeat.c_str());
    if (!heartbeat.empty() && (beat < LEAST_BEAT || beat > MOST_BEAT))
        return "HeartBtInt (108) must be " + std::to_string(LEAST_BEAT) + " to " + std::to_string(MOST_BEAT);
    if (logon.is(FIX::FIELD::ResetSeqNumFlag, "Y") && !member_.limits.mayReset)
        return "ResetSeqNumFlag (141) isn't taken: it would drop what was missed";
    if (isFaulty_) return "this member can't be served, and the operator of the venue is told why";
    if (member_.isOfCopies()) return areCopiesThere_ ? "" : "the journal isn't read yet: try again";
    return traders_.letsOn() ? "" : "the venue isn't there yet: try again";
}

}
