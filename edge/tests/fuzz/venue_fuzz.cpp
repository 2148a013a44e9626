// A target of libFuzzer: any bytes, and a message that has them as its body. What the proved framer takes of the venue's
// spelling the venue's link takes too, and what both take is the same. fuzz_tests.py compiles and runs it.
#include <cstdint>
#include <cstdlib>
#include <set>
#include <string>

#include "fields.h"
#include "framer.h"
#include "venue_frame.h"

namespace {

constexpr std::size_t LONGEST = 1 << 14;

void want(bool isSo) {
    if (!isSo) std::abort();
}

std::string framed(const std::string &body) {
    const std::string whole = "8=FIX.4.4\0019=" + std::to_string(body.size()) + "\1" + body;
    unsigned sum = 0;
    for (const char it : whole) sum += static_cast<unsigned char>(it);
    return whole + "10=" + std::to_string(1000 + sum % 256).substr(1) + "\1";
}

/// Whether the message in front of these bytes is one of the venue.
bool isTaken(const std::string &bytes, const edge::VenueFrame &frame, const edge::Fields &fields) {
    want(frame.kind != edge::VenueFrame::Kind::Whole || (frame.size <= bytes.size() && frame.end > frame.body));
    return frame.kind == edge::VenueFrame::Kind::Whole && fields.areVenues() && fields.isFirst(35);
}

void compare(const std::string &bytes, bool isCanonical) {
    const edge::VenueFrame frame = edge::venueFrame(bytes.data(), bytes.size(), LONGEST);
    const edge::Fields fields(bytes.data(), frame);
    static edge::Framer framer(2 * LONGEST);
    const edge::Sight sight = framer.look(bytes.data(), bytes.size());
    const bool isThere = !sight.passed && sight.kind == edge::Framer::Taken;
    if (isCanonical) want(isThere <= isTaken(bytes, frame, fields));
    if (!isTaken(bytes, frame, fields) || !isThere) return;
    want(sight.size == frame.size);
    std::set<int> seen;
    for (std::size_t at = 0; at < sight.fields; at++) {
        const edge::Place &it = framer.places()[at];
        const int tag = static_cast<int>(it.tag);
        want(fields.has(tag) && (!seen.insert(tag).second || fields.text(tag) == bytes.substr(it.at, it.size)));
    }
}

}

extern "C" int LLVMFuzzerTestOneInput(const std::uint8_t *data, std::size_t size) {
    const std::string bytes(reinterpret_cast<const char *>(data), size);
    compare(bytes, false);
    if (size) compare(framed(bytes), true);
    return 0;
}
