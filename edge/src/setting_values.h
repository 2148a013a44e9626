#pragma once

// Values of settings as they stand in a file. settings.h reads by these, and so do the parts of it in files of their
// own. What is missing or wrong is a BadSetting with its name.

#include <quickfix/Dictionary.h>

#include <string>
#include <vector>

namespace edge {

/// The value of a setting that has to be there.
std::string textOf(const FIX::Dictionary &from, const std::string &name);

/// The same of one that may be left out.
std::string textOr(const FIX::Dictionary &from, const std::string &name, const std::string &other);

/// A whole number of this range.
long numberOf(const FIX::Dictionary &from, const std::string &name, long least, long most);
long numberOr(const FIX::Dictionary &from, const std::string &name, long least, long most, long other);

/// Y or N.
bool flagOr(const FIX::Dictionary &from, const std::string &name, bool other);

/// The words of a text, between blanks.
std::vector<std::string> wordsOf(const std::string &text);

}
