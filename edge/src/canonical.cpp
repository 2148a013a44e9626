#include "canonical.h"

#include <quickfix/FixFieldNumbers.h>

#include <algorithm>

namespace edge {

namespace {

namespace FIELD = FIX::FIELD;

// SessionRejectReason (373).
constexpr int INVALID_TAG = 0, NO_VALUE = 4, OUT_OF_RANGE = 5, BAD_FORMAT = 6, TWICE = 13;

constexpr std::uint32_t DIGITS = 9;  // Of a number, as the framer has it.

/// What a message is known and counted by.
const int HEADER[] = {FIELD::MsgType, FIELD::MsgSeqNum, FIELD::SenderCompID, FIELD::TargetCompID};

/// What stands once: the header, and what the edge itself goes by. Of two of these the library may take the other one.
const int ONCE[] = {FIELD::MsgType,  FIELD::MsgSeqNum, FIELD::SenderCompID,   FIELD::TargetCompID, FIELD::BeginSeqNo,
                    FIELD::EndSeqNo, FIELD::NewSeqNo,  FIELD::PossDupFlag,    FIELD::HeartBtInt,   FIELD::GapFillFlag,
                    FIELD::Username, FIELD::Password,  FIELD::ResetSeqNumFlag};

bool isOfHeader(int tag) {
    return std::find(std::begin(HEADER), std::end(HEADER), tag) != std::end(HEADER);
}

/// The framer's reason in words, of a field of this tag, or of one that has none.
std::string wordsOf(int reason, int tag) {
    switch (reason) {
        case INVALID_TAG:
            return tag ? "is one of data, and none of these is taken" : "has a tag that isn't a number of 1 to 99999";
        case NO_VALUE: return "has no value";
        case OUT_OF_RANGE: return "has more than 9 digits";
        case BAD_FORMAT: return "has a byte that doesn't print, or is no number where one has to be";
        default: return "has more than " + std::to_string(Framer::MOST_FIELDS) + " fields";
    }
}

}

Judged::Judged(const std::string &message, const Framer &framer)
    : message_(message), fields_(framer.places()), count_(framer.sight().fields) {
    takeVerdict(framer.sight());
    needOnce();
    needHeader();
    needRange();
}

void Judged::takeVerdict(const Sight &sight) {
    if (sight.kind == Framer::Taken) return;
    const int reason = static_cast<int>(sight.reason);
    const int tag = sight.field < count_ ? static_cast<int>(fields_[sight.field].tag) : 0;
    refused(reason, tag, wordsOf(reason, tag));
}

void Judged::needOnce() {
    unsigned seen = 0;
    for (const Place &field : *this) {
        const auto found = std::find(std::begin(ONCE), std::end(ONCE), static_cast<int>(field.tag));
        if (found == std::end(ONCE)) continue;
        const unsigned bit = 1U << (found - ONCE);
        if (seen & bit) refused(TWICE, *found, "stands twice");
        seen |= bit;
    }
}

void Judged::needHeader() {
    for (const int tag : HEADER)
        if (!find(tag)) garbled("field " + std::to_string(tag) + " is missing");
}

/// A ResendRequest asks for numbers that there may be, and in their order: the library would count through all others.
void Judged::needRange() {
    if (!is(FIELD::MsgType, "2")) return;
    const long first = number(FIELD::BeginSeqNo), last = number(FIELD::EndSeqNo);
    if (find(FIELD::BeginSeqNo) && !first) refused(OUT_OF_RANGE, FIELD::BeginSeqNo, "is 0, which no message has");
    if (last && last < first) refused(OUT_OF_RANGE, FIELD::EndSeqNo, "is below field 7");
}

void Judged::garbled(const std::string &why) {
    if (verdict_ == Verdict::Garbled) return;
    verdict_ = Verdict::Garbled;
    why_ = why;
}

/// A field that isn't right, or 0 for what has no field: one of the header makes the whole message a garbled one.
void Judged::refused(int reason, int tag, const std::string &why) {
    const std::string text = (tag ? "field " + std::to_string(tag) : "it") + " " + why;
    if (isOfHeader(tag)) garbled(text);
    if (verdict_ != Verdict::Good) return;
    verdict_ = Verdict::Refused;
    reason_ = reason;
    tag_ = tag;
    why_ = text;
}

const Place *Judged::find(int tag) const {
    const auto found =
        std::find_if(begin(), end(), [tag](const Place &it) { return it.tag == static_cast<std::uint32_t>(tag); });
    return found == end() ? nullptr : found;
}

std::string Judged::text(int tag) const {
    const Place *const it = find(tag);
    return it ? message_.substr(it->at, it->size) : std::string();
}

bool Judged::is(int tag, const std::string &value) const {
    const Place *const it = find(tag);
    return it && !message_.compare(it->at, it->size, value);
}

long Judged::number(int tag) const {
    const Place *const it = find(tag);
    long value = 0;
    for (std::uint32_t at = 0; it && at < std::min(it->size, DIGITS); at++)
        value = value * 10 + (message_[it->at + at] - '0');
    return value;
}

}
