#pragma once

// What the targets of libFuzzer for the venue's reports share: a member's record of some names, and what is wanted of
// each report that is written for the member. fuzz_tests.py compiles and runs them.

#include <cstdlib>
#include <map>
#include <stdexcept>
#include <string>

#include "exposure.h"
#include "fields.h"
#include "names.h"
#include "open_orders.h"
#include "record.h"
#include "reports.h"

namespace fuzz {

inline void want(bool isSo) {
    if (!isSo) std::abort();
}

/// A member with two symbols and one name.
class Told {
public:
    Told() : record_("fuzz.db", "C1", edge::Before()), names_(opened(record_)), reports_(ticks_, names_, "1") {
        names_.add("ORD-7", edge::Names::Kind::Request);
        names_.add("edge-expiry-2", edge::Names::Kind::Expiry);
        record_.commit();
    }

    /// Takes in a report, as the edge does: one of 8 or 9 becomes a message, or the venue's price is refused.
    void take(const edge::Fields &report) {
        for (const int tag : {11, 17, 41, 45}) want(report.number(tag) >= 0);
        if (report.byte(35) == '8') open_.take(report, edge::FIRST_DESK);
        exposure_.take(report);
        want(exposure_.shownValue() >= 0);
        if (report.byte(35) != '8' && report.byte(35) != '9') return;
        try {
            const std::string told = reports_.of(report);
            want(edge::Fields(told.data(), told.size(), '\1').has(11));
        } catch (const std::invalid_argument &) {}
    }

    /// Forgets the orders: what comes next is another input.
    void clear() {
        want(exposure_.crossedBy("ABC", '1', 0).empty() || exposure_.shownValue() > 0);
        open_.clear();
        exposure_.clear();
    }

private:
    static edge::Record &opened(edge::Record &record) {
        record.open();
        return record;
    }

    const std::map<std::string, edge::Tick> ticks_{{"ABC", edge::Tick("0.25")}, {"XYZ", edge::Tick("1")}};
    edge::Record record_;
    edge::Names names_;
    edge::Reports reports_;
    edge::OpenOrders open_;
    edge::Exposure exposure_{ticks_};
};

}
