#pragma once

#include <string>
#include <vector>

#include "settings.h"

namespace edge {

/// The certificate by which a stunnel knows one member: its base64, without line ends. The configuration of stunnel has
/// one service, which leads to this address and port, and takes whoever has that certificate, and nobody else. One that
/// isn't so, or that can't be read, is a BadSetting.
std::string certificateBy(const std::string &configuration, const std::string &host, int port);

/// The desks of a member can be served side by side: no two have one port or certificate; else a BadSetting.
void needDesksApart(const Settings &member);

/// Members can be served side by side: no two have one name, port, page, folder or certificate, and desks of one firm
/// name the same members; else a BadSetting.
void needApart(const std::vector<Settings> &members);

}
