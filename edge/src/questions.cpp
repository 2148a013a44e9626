#include "questions.h"

#include <quickfix/FixFieldNumbers.h>

#include <algorithm>

#include "messages.h"

namespace edge {

int otherFieldOf(const FIX::Message &message, std::initializer_list<int> used, const std::set<int> &dropped) {
    for (const auto &field : message) {
        const int tag = field.getTag();
        if (std::find(used.begin(), used.end(), tag) == used.end() && !dropped.count(tag)) return tag;
    }
    return 0;
}

FIX::Message questionReject(const FIX::Message &asked, int nameField, int reason, const std::string &why) {
    FIX::Message told = made("j");
    told.setField(FIX::FIELD::RefSeqNum, textOf(asked.getHeader(), FIX::FIELD::MsgSeqNum));
    told.setField(FIX::FIELD::RefMsgType, asked.getHeader().getField(FIX::FIELD::MsgType));
    const std::string name = textOf(asked, nameField);
    if (!name.empty()) told.setField(FIX::FIELD::BusinessRejectRefID, name);
    told.setField(FIX::FIELD::BusinessRejectReason, std::to_string(reason));
    told.setField(FIX::FIELD::Text, SAID_BY_EDGE + why);
    return told;
}

}
