#pragma once

#include <quickfix/FieldMap.h>

#include <cstring>
#include <string>
#include <vector>

#include "venue_frame.h"

namespace edge {

/// The fields of a message of the venue, in their order: of its bytes, or of a line of venue-events. It refers to them.
class Fields {
public:
    /// Those of the body of a message, which begins there.
    Fields(const char *message, const VenueFrame &frame) : Fields(message, frame.size, frame.body, frame.end, '\1') {}

    /// Those of any bytes, each of which ends by this one.
    Fields(const char *from, std::size_t size, char separator) : Fields(from, size, 0, size, separator) {}

    /// Whether all of these bytes are fields as they stand in a body of the venue: a tag of 1 to 5 digits that doesn't
    /// begin with 0 and is none of a frame, and a value of one byte or more, all of which print.
    bool areVenues() const { return areVenues_; }

    /// The bytes that they are read from.
    std::string bytes() const { return {from_, size_}; }
    std::size_t size() const { return size_; }

    bool has(int tag) const { return find(tag); }

    /// Whether the first field has this tag.
    bool isFirst(int tag) const { return !all_.empty() && all_.front().tag == tag; }

    /// The value of a field, or nothing.
    std::string text(int tag) const {
        const Field *const it = find(tag);
        return it ? std::string(it->value, it->size) : std::string();
    }

    /// Puts the value of a field behind a text, where there is one.
    void append(int tag, std::string &to) const {
        if (const Field *const it = find(tag)) to.append(it->value, it->size);
    }

    /// The first byte of a field, or 0.
    char byte(int tag) const {
        const Field *const it = find(tag);
        return it ? *it->value : '\0';
    }

    /// The number that a field has, or 0 where it has none, or one of more digits than any of the venue.
    long number(int tag) const {
        const Field *const it = find(tag);
        long value = 0;
        if (it && it->size > DIGITS) return 0;
        for (std::size_t at = 0; it && at < it->size; at++) {
            if (it->value[at] < '0' || it->value[at] > '9') return 0;
            value = value * 10 + (it->value[at] - '0');
        }
        return value;
    }

private:
    Fields(const char *bytes, std::size_t size, std::size_t begin, std::size_t end, char separator)
        : from_(bytes), size_(size) {
        all_.reserve(USUAL);
        for (const char *from = bytes + begin, *const stop = bytes + end; from < stop;)
            if (!take(from, stop, separator)) return;
        areVenues_ = areVenues_ && begin < end;
    }

    /// Takes a field, and goes behind it. Whether it has an end.
    bool take(const char *&from, const char *stop, char separator) {
        const char *const begin = from;
        int tag = 0;
        for (; from < stop && *from >= '0' && *from <= '9'; from++)
            if (tag < GREATEST) tag = tag * 10 + (*from - '0');
        const std::ptrdiff_t digits = from - begin;
        const bool isOfFrame = tag >= 8 && tag <= 10;
        const bool isTag = digits && digits <= TAG && *begin != '0' && !isOfFrame && from < stop && *from == '=';
        const char *const value = from < stop ? ++from : stop;
        const void *const end = std::memchr(value, separator, static_cast<std::size_t>(stop - value));
        areVenues_ = areVenues_ && isTag && end && end != value;
        if (!end) {
            areVenues_ = false;
            return false;
        }
        from = static_cast<const char *>(end);
        bool prints = true;
        for (const char *it = value; it < from; it++) prints &= (*it >= ' ') & (*it <= '~');
        areVenues_ = areVenues_ && prints;
        all_.push_back({tag, value, static_cast<std::size_t>(from++ - value)});
        return true;
    }

    static constexpr std::ptrdiff_t TAG = 5;    // Digits of a tag.
    static constexpr std::size_t DIGITS = 18;   // So many are a number of a long, whatever they are.
    static constexpr int GREATEST = 100000000;  // Above this a tag is none of FIX, and stays where it is.
    static constexpr std::size_t USUAL = 32;    // Hardly any report has more.

    struct Field {
        int tag;
        const char *value;
        std::size_t size;
    };

    const Field *find(int tag) const {
        for (const Field &it : all_)
            if (it.tag == tag) return &it;
        return nullptr;
    }

    const char *const from_;
    const std::size_t size_;
    bool areVenues_ = true;
    std::vector<Field> all_;
};

/// The value of a field of the library's messages, or nothing.
inline std::string textOf(const FIX::FieldMap &from, int tag) {
    return from.isSetField(tag) ? from.getField(tag) : std::string();
}

}
