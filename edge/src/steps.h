#pragma once

// The steps of prices that a member's orders were taken with. No message passes here: a start looks here before a
// member is served, and so does a look through the settings.

#include <string>

#include "settings.h"

namespace edge {

/// Looks whether the settings have the symbols and the steps with which this member was served before. Where they have
/// others, a BadSetting says which: what rests in the book would have other prices.
void needSameSteps(const Settings &settings);

/// The same, and keeps them at the member's first start. Its folder is held meanwhile.
void keepSteps(const Settings &settings);

/// The letter of the venue that a member had who had one: the one with the symbols and steps of that, or the first one of
/// the settings.
std::string firstVenue(const Settings &settings);

}
