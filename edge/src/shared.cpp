#include "shared.h"

#include <string>

#include "lines.h"

namespace edge {

Shared::Shared(const Settings &settings, Record &record)
    : member_(settings.member),
      record_(record),
      switches_(record, settings.symbols()),
      rate_(settings.member.limits.membersPerSecond),
      room_(settings.folder, settings.diskReserve),
      quota_({settings.folder, settings.logFolder}, settings.folderBytes) {
    for (const MemberSettings *it : settings.sessions()) rates_.emplace(it->desk, Bucket(it->limits.messagesPerSecond));
}

bool Shared::hasRoom() {
    const bool isKept = quota_.isKept();
    const bool hasRoom = room_.isThere() && isKept;
    if (hasRoom_ && !hasRoom)
        say(member_.name(), std::string("new orders are refused: ") +
                                (isKept ? "the disk is nearly full" : "its folders have more than MaxFolderBytes"));
    hasRoom_ = hasRoom;
    return hasRoom_;
}

}
