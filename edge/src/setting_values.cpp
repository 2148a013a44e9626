#include "setting_values.h"

#include <sstream>

#include "settings.h"

namespace edge {

using FIX::Dictionary;

std::string textOf(const Dictionary &from, const std::string &name) {
    if (!from.has(name)) throw BadSetting(name, "is missing");
    const std::string value = from.getString(name);
    if (value.empty()) throw BadSetting(name, "is empty");
    return value;
}

std::string textOr(const Dictionary &from, const std::string &name, const std::string &other) {
    return from.has(name) ? textOf(from, name) : other;
}

long numberOf(const Dictionary &from, const std::string &name, long least, long most) {
    const std::string text = textOf(from, name);
    if (text.size() > 15 || text.find_first_not_of("0123456789") != std::string::npos)
        throw BadSetting(name, "is no number: " + text);
    const long value = std::stol(text);
    if (value < least || value > most)
        throw BadSetting(name, "isn't " + std::to_string(least) + " to " + std::to_string(most) + ": " + text);
    return value;
}

long numberOr(const Dictionary &from, const std::string &name, long least, long most, long other) {
    return from.has(name) ? numberOf(from, name, least, most) : other;
}

bool flagOr(const Dictionary &from, const std::string &name, bool other) {
    if (!from.has(name)) return other;
    const std::string text = textOf(from, name);
    if (text != "Y" && text != "N") throw BadSetting(name, "is neither Y nor N: " + text);
    return text == "Y";
}

std::vector<std::string> wordsOf(const std::string &text) {
    std::istringstream from(text);
    std::vector<std::string> words;
    for (std::string word; from >> word;) words.push_back(word);
    return words;
}

}
