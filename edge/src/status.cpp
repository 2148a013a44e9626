#include "status.h"

#include <ctime>
#include <sstream>

#include "hours.h"
#include "seconds.h"

namespace edge {

namespace {

/// How many requests each limit has refused, of those that have refused any.
std::string refusalsOf(const Member &member) {
    std::string words;
    for (const Limit limit : ALL_LIMITS)
        if (const long count = member.refusalsBy(limit))
            words += std::string(words.empty() ? " (" : ", ") + std::to_string(count) + " by " + nameOf(limit);
    return words.empty() ? words : words + ")";
}

/// What a session of copies says in the place of requests and orders.
std::string wordsOf(const Copies &copies, const MemberSettings &settings) {
    std::string members;
    for (const CopiedMember &it : settings.copied) members += " " + it.name;
    const std::string waiting = copies.waiting();
    return std::to_string(copies.count()) + " copies of" + members + ", the last " + copies.lastWord() +
           (copies.isCutOff() ? ", doesn't read the journal" : "") + (waiting.empty() ? "" : ", waits for" + waiting);
}

/// The same of each venue.
std::string wordsOf(const std::list<Copies> &all, const MemberSettings &settings) {
    std::string words;
    for (const Copies &it : all) words += (words.empty() ? "" : ", ") + wordsOf(it, settings);
    return words;
}

/// How far a member is, at each venue where it has several.
std::string stateOf(const Member &member) {
    if (member.venues().size() == 1 || !member.copies().empty()) return wordsOf(member.state());
    std::string words;
    for (const Venue &it : member.venues())
        words += (words.empty() ? "" : ", ") + it.place().letter + " " + wordsOf(it.state());
    return words;
}

/// The last report of each venue that a member was told.
std::string lastOf(const Member &member) {
    std::string words;
    for (const Venue &it : member.venues())
        words += (words.empty() ? "" : " ") + it.place().letter + std::to_string(it.trader().counts().lastReport);
    return words;
}

/// What a desk's client hasn't taken, its day, and whether it is being told again what it wasn't sent: of copies the
/// state says that.
std::string wordsOf(const MemberSession &it) {
    const bool isOwed = it.isOwed() && !it.settings().isOfCopies();
    return std::to_string(it.unsent()) + " bytes not taken, numbers since " + timeOf(it.dayBegan()) +
           (isOwed ? ", is told again what it wasn't sent" : "");
}

/// The desks beside the first one.
std::string othersOf(const Member &member) {
    std::string words;
    for (const MemberSession &it : member.sessions())
        if (it.desk() != FIRST_DESK)
            words += "; " + it.settings().deskName() + " (" + it.settings().session.getTargetCompID().getString() +
                     "): " + (it.isLoggedOn() ? "logged on, " : "away, ") + wordsOf(it);
    return words;
}

/// What a member has asked for, and what it was told.
std::string wordsOf(const CountsOfAll &counts, const Member &member) {
    return std::to_string(counts.requests) + " requests, " + std::to_string(counts.refusals) + " refused by the edge" +
           refusalsOf(member) + ", " + std::to_string(counts.reports) + " reports, the last " + lastOf(member) + ", " +
           std::to_string(counts.openOrders) + " open orders worth " + textOf(member.openValue());
}

}

std::string statusOf(const Member &member) {
    const std::string off = member.switches().words(), outside = outsideOf(member.hours(), std::time(nullptr));
    const MemberSettings &settings = member.settings();
    const MemberSession &first = member.sessions().front();
    std::ostringstream line;
    line << settings.name() << " (" << settings.session.getTargetCompID().getString() << "): " << stateOf(member)
         << (outside.empty() ? "" : ", ") << outside << ", " << (first.isLoggedOn() ? "logged on" : "away") << ", "
         << (member.copies().empty() ? wordsOf(member.counts(), member) : wordsOf(member.copies(), settings)) << ", "
         << wordsOf(first) << othersOf(member) << (off.empty() ? "" : ", ") << off;
    return line.str();
}

StatusPage::StatusPage(int port, const Member &member)
    : member_(member),
      page_(
          port, [this] { return statusOf(member_) + "\n"; }, [this] { return figures(); }) {}

std::string StatusPage::figures() const {
    const CountsOfAll counts = member_.counts();
    long copies = 0;
    for (const Copies &it : member_.copies()) copies += it.count();
    const MemberSession &first = member_.sessions().front();
    const std::string member = "{member=\"" + member_.settings().name() + "\"} ";
    std::ostringstream page;
    page << "gikvand_edge_serves" << member << (member_.state() == Serving::Serves) << "\n"
         << "gikvand_edge_within_hours" << member << member_.hours().isOpen(std::time(nullptr)) << "\n"
         << "gikvand_edge_logged_on" << member << first.isLoggedOn() << "\n"
         << "gikvand_edge_requests_total" << member << counts.requests << "\n"
         << "gikvand_edge_refusals_total" << member << counts.refusals << "\n"
         << "gikvand_edge_reports_total" << member << (member_.copies().empty() ? counts.reports : copies) << "\n"
         << "gikvand_edge_open_orders" << member << counts.openOrders << "\n"
         << "gikvand_edge_open_value" << member << textOf(member_.openValue()) << "\n"
         << "gikvand_edge_day_began_seconds" << member << first.dayBegan() << "\n"
         << "gikvand_edge_unsent_bytes" << member << first.unsent() << "\n"
         << "gikvand_edge_stopped" << member << member_.switches().showsStopped() << "\n";
    for (const MemberSession &it : member_.sessions()) {
        if (it.desk() == FIRST_DESK) continue;
        const std::string desk =
            "{member=\"" + it.settings().name() + "\",desk=\"" + std::to_string(it.desk()) + "\"} ";
        page << "gikvand_edge_logged_on" << desk << it.isLoggedOn() << "\n"
             << "gikvand_edge_day_began_seconds" << desk << it.dayBegan() << "\n"
             << "gikvand_edge_unsent_bytes" << desk << it.unsent() << "\n";
    }
    for (const Venue &it : member_.venues()) {
        if (member_.venues().size() == 1 || !member_.copies().empty()) continue;
        const std::string venue = "{member=\"" + member_.settings().name() + "\",venue=\"" + it.place().letter + "\"} ";
        page << "gikvand_edge_venue_serves" << venue << (it.state() == Serving::Serves) << "\n"
             << "gikvand_edge_venue_last_report" << venue << it.trader().counts().lastReport << "\n";
    }
    for (const auto &it : member_.switches().shownHalted())
        page << "gikvand_edge_halted{member=\"" << member_.settings().name() << "\",symbol=\"" << it.first << "\"} "
             << it.second << "\n";
    for (const Limit limit : ALL_LIMITS)
        page << "gikvand_edge_limit_refusals_total{member=\"" << member_.settings().name() << "\",limit=\""
             << nameOf(limit) << "\"} " << member_.refusalsBy(limit) << "\n";
    return page.str();
}

}
