#include "sessions.h"

#include <quickfix/FixFieldNumbers.h>

#include "message_types.h"
#include "steps.h"

namespace edge {

void Application::fromApp(const FIX::Message &message,
                          const FIX::SessionID &) throw(FIX::FieldNotFound, FIX::IncorrectDataFormat,
                                                        FIX::IncorrectTagValue, FIX::UnsupportedMessageType) {
    const std::string &type = message.getHeader().getField(FIX::FIELD::MsgType);
    if (!isRequest(type)) throw FIX::UnsupportedMessageType();
    desk_.asked(message);
}

FIX::MessageStore *Stores::create(const FIX::SessionID &session) {
    return store_ = new Store(record_, desk_, session);
}

void Stores::destroy(FIX::MessageStore *store) {
    delete store;
}

std::string recordPath(const Settings &settings) {
    return settings.folder + "/" + settings.member.name() + ".db";
}

std::unique_ptr<Record> recordOf(const Settings &settings) {
    const std::string name = settings.member.name(), front = settings.folder + "/" + name;
    const Before before{front + ".names", front + ".told", settings.storeFolder, settings.member.session};
    std::set<int> desks;
    for (const Settings &it : settings.desks) desks.insert(it.member.desk);
    std::vector<std::string> venues;
    for (const VenuePlace &it : settings.venues) venues.push_back(it.letter);
    return std::unique_ptr<Record>(new Record(recordPath(settings), name, before, desks, venues, firstVenue(settings)));
}

}
