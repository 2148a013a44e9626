#pragma once

#include <algorithm>
#include <iterator>
#include <string>

namespace edge {

/// The MsgTypes (35) of what a member may ask for: of the venue, and of the edge itself, which are questions.
constexpr const char *REQUESTS[] = {"D", "F", "G", "q", "V", "x", "H", "AF", "AD"};
constexpr int QUESTIONS = 4;  // From there on.

inline bool isRequest(const std::string &type) {
    return std::find(std::begin(REQUESTS), std::end(REQUESTS), type) != std::end(REQUESTS);
}

inline bool isQuestion(const std::string &type) {
    return std::find(REQUESTS + QUESTIONS, std::end(REQUESTS), type) != std::end(REQUESTS);
}

/// These types in words.
inline std::string requestTypes() {
    std::string words;
    for (const char *const it : REQUESTS)
        words += std::string(words.empty() ? "" : it == *std::prev(std::end(REQUESTS)) ? " and " : ", ") + it;
    return words;
}

/// Whether this is a MsgType (35) of FIX 4.4 that the edge has nothing to do with where a member sends it.
inline bool isUnsupportedType(const std::string &type) {
    if (isRequest(type)) return false;
    if (type.size() == 1)
        return std::string("67BCEHJKLMNPQRSTVWXYZabcdefghiklmnoprstuvwxyz").find(type) != std::string::npos;
    return type.size() == 2 && ((type[0] == 'A' && type[1] >= 'A' && type[1] <= 'Z') ||
                                (type[0] == 'B' && type[1] >= 'A' && type[1] <= 'H'));
}

/// The value of a field of a message of the session, the first that begins so; nothing where there is none.
inline std::string valueIn(const std::string &message, const char *begins) {
    const std::size_t at = message.find(begins), from = at + std::string(begins).size();
    return at == std::string::npos ? "" : message.substr(from, message.find('\1', from) - from);
}

/// The type of a message of the session, which stands behind its length.
inline std::string typeOf(const std::string &message) {
    return valueIn(message, "\00135=");
}

/// Whether a message of the session says how a market is, or what has changed in it.
inline bool isOfMarket(const std::string &message) {
    const std::string type = typeOf(message);
    return type == "W" || type == "X";
}

/// Whether a message of the session says how something is at its moment, as an answer to who has asked for that. Later
/// there is nothing in it that has to be told.
inline bool isOfItsMoment(const std::string &message) {
    static const std::string ANSWERS[] = {"W", "X", "Y", "y", "f", "AE", "AQ"};
    const std::string type = typeOf(message);
    if (type == "8") return valueIn(message, "\001150=") == "I";
    if (type == "j") return isQuestion(valueIn(message, "\001372="));
    return std::find(std::begin(ANSWERS), std::end(ANSWERS), type) != std::end(ANSWERS);
}

}
