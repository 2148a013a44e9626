#pragma once

// What stands beside the words of a file: the files of other members, the venue's own settings, and the user whom the
// member's service has. --check looks at these, and an operator may name the whole folder.

#include <string>
#include <vector>

#include "settings.h"

namespace edge {

/// The files of settings that a path stands for: itself, or each NAME.cfg of a folder. A folder without one is a
/// BadSetting.
std::vector<std::string> settingsAt(const std::string &path);

/// No other file in the folder of this one, NAME.cfg with one session, has the same member, port or folder; else a
/// BadSetting. A file that can't be read isn't looked at, nor is anything where this one has several sessions.
void needOwnPlaces(const std::string &path);

/// The venue has a port for this member, where the settings of its service are there, by /etc/venued.conf or a file in
/// /etc/venued; else a BadSetting.
void needGateway(const Settings &settings);

/// Where root asks, and the file is that of a service, /etc/gikvand-edge/NAME.cfg: makes this process one of the user
/// gikvand-edge-NAME, as the service is. Whether it is so now.
bool becomeServicesUser(const std::string &path);

}
