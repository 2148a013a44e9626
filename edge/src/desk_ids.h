#pragma once

// Which CompID the desk of a number has. No message passes here: a start looks here before a member is served, and so
// does a look through the settings.

#include "settings.h"

namespace edge {

/// Looks whether each desk of the settings has the CompID with which the member was served before. Where a number is
/// that of another CompID, or a CompID that of another number, a BadSetting says which: an engine would be sent what
/// another desk was told. A member that never had several desks may have another CompID.
void needSameDesks(const Settings &settings);

/// The same, and keeps what is new. The member's folder is held meanwhile.
void keepDesks(const Settings &settings);

}
