#pragma once

#include <algorithm>
#include <cstddef>
#include <cstdint>
#include <vector>

namespace edge {

/// Where a field of a message stands: `at` and `size` are of its value, and `at` counts from the message's first byte.
/// The tag is 1 to 99,999; 0 where the field's digits are no tag.
struct Place {
    std::uint32_t tag, at, size;
};

/// What a look at some bytes finds.
struct Sight {
    std::uint32_t kind;    // Kind
    std::uint32_t reason;  // Of what is refused: SessionRejectReason (373), which is 0, 4, 5, 6 or 99.
    std::size_t passed;    // So many bytes are passed over: in front of the message, or for good where none has come.
    std::size_t size;      // Of the message.
    std::size_t fields;    // So many of its fields are listed: those of its body, MsgType (35) first.
    std::size_t field;     // Of what is refused: so many fields stand before that for which it is.
};

static_assert(sizeof(Place) == 12 && alignof(Place) == 4, "as edge_frames has it");
static_assert(sizeof(std::size_t) == 8 && sizeof(Sight) == 40 && offsetof(Sight, passed) == 8 &&
                  offsetof(Sight, field) == 32,
              "as edge_frames_c has it");

/// The proved framer (crates/edge_frames): no pointer may be null, and what is lent may not overlap.
extern "C" void edge_frames_look(const std::uint8_t *bytes, std::size_t count, std::size_t longest, Place *places,
                                 std::size_t most, Sight *sight);

/// Finds messages of FIX in bytes of strangers: the first that happens to what a client sends. What it takes is whole
/// and canonical: its length and its sum are right, and each field has a tag of 1 to 5 digits and a value of bytes that
/// print. What it refuses is whole, and has a field that isn't so. All else it passes over, as FIX asks.
class Framer {
public:
    enum Kind : std::uint32_t { None = 0, Taken = 1, Refused = 2 };

    static constexpr std::size_t MOST_FIELDS = 200;

    /// Of messages of so many bytes at most, and so many fields.
    explicit Framer(std::size_t longest, std::size_t most = MOST_FIELDS)
        : longest_(longest), places_(std::max<std::size_t>(most, 1)) {}

    /// Looks for the first message of these bytes. Its caller takes off what is passed over, and then the message, and
    /// looks again; where there is none, what is left is shorter than `longest`, and more has to come behind it.
    const Sight &look(const char *bytes, std::size_t count) {
        static const std::uint8_t nothing = 0;
        const std::uint8_t *const from = count ? reinterpret_cast<const std::uint8_t *>(bytes) : &nothing;
        edge_frames_look(from, count, longest_, places_.data(), places_.size(), &sight_);
        return sight_;
    }

    /// The fields of the message that was found, `sight().fields` of them, until the next look.
    const Place *places() const { return places_.data(); }
    const Sight &sight() const { return sight_; }

private:
    const std::size_t longest_;
    std::vector<Place> places_;
    Sight sight_{};
};

}
