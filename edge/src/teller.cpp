#include "teller.h"

#include <quickfix/FieldConvertors.h>

#include "frame.h"

namespace edge {

namespace {
constexpr std::size_t USUAL = 512;  // Hardly any message has more bytes.
}

void Teller::tell(char type, const std::string &body) {
    const std::string message = written(type, body);
    record_.put(record_.state().sender, message);
    record_.change().sender++;
    if (!session_->isLoggedOn() || !client_) return;
    session_->getLog()->onOutgoing(message);
    client_->send(message);
}

/// The header has its fields in the library's order.
std::string Teller::written(char type, const std::string &body) const {
    const FIX::SessionID &session = session_->getSessionID();
    std::string fields;
    fields.reserve(USUAL);
    fields += "35=";
    fields += type;
    fields += "\00134=";
    fields += std::to_string(record_.state().sender);
    fields += "\00149=";
    fields += session.getSenderCompID().getValue();
    fields += "\00152=";
    fields += FIX::UtcTimeStampConvertor::convert(FIX::UtcTimeStamp(), session_->getTimestampPrecision());
    fields += "\00156=";
    fields += session.getTargetCompID().getValue();
    fields += '\1';
    fields += body;
    std::string message;
    message.reserve(USUAL);
    frame(fields, message);
    return message;
}

}
