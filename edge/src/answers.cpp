#include "answers.h"

#include <quickfix/FixFieldNumbers.h>

#include "fields.h"
#include "message_types.h"

namespace edge {

void Answers::attach(FIX::Session &session) {
    market_.attach(session);
    securities_.attach(session);
    orders_.attach(session);
    trades_.attach(session);
}

/// Both times are of the client's clock, and written by its engine.
bool Answers::isOfBefore(const FIX::Message &message) const {
    const FIX::Header &header = message.getHeader();
    return textOf(header, FIX::FIELD::PossDupFlag) == "Y" && textOf(header, FIX::FIELD::OrigSendingTime) < loggedOnAt_;
}

bool Answers::asked(const std::string &type, const FIX::Message &message) {
    if (isQuestion(type) && isOfBefore(message)) return true;
    if (type == "V") market_.asked(message);
    else if (type == "x") securities_.asked(message);
    else if (type == "H" || type == "AF") orders_.asked(message);
    else if (type == "AD") trades_.asked(message);
    else return false;
    return true;
}

long Answers::tell(const HasRoom &hasRoom, bool isMarketThere) {
    securities_.tell(hasRoom);
    if (isMarketThere) market_.tell(hasRoom);
    return trades_.tell(hasRoom);
}

std::chrono::milliseconds Answers::pause(std::chrono::milliseconds most, bool isMarketThere) const {
    if (trades_.isBehind() || securities_.isBehind()) return std::chrono::milliseconds(0);
    return isMarketThere ? market_.pause(most) : most;
}

void Answers::beginAnew() {
    market_.beginAnew();
    securities_.beginAnew();
    trades_.beginAnew();
}

void Answers::end() {
    market_.end();
    securities_.end();
    trades_.end();
}

}
