"""The wrong versions of gikvand-feed, by name: what breaks a rule, and the test of feed/check that refuses that.
wrong_feeds.py tries them."""
from wrong_versions import Wrong

SCRIPT = "servers"  # The script that starts servers, in the place of a source.


def path(wrong: Wrong) -> str:
    """The file that a wrong version changes, from the root."""
    return "feed/servers" if wrong.source == SCRIPT else f"feed/src/{wrong.file()}"


WRONG = {
    "messages without a number": Wrong("server", "    need(natsMsgHeader_Set(made, EXPECTED, std::to_string(number - 1).c_str()));\n",
                                       "    (void)number;\n", "test_hashes"),
    "drop copies that nobody can do without": Wrong("settings", 'from.number("Members", 0, 8, 8)', 'from.number("Members", 1, 8, 8)', "no_drop_copies"),
    "a start that systemd isn't told": Wrong("main", "    starter.tell();\n", "", "told_to_systemd"),
    "help that is an error": Wrong("main", '    if (all == std::vector<std::string>{"--help"}) return actForHelp();\n', "", "test_help"),
    "refusals that nobody hears": Wrong("stream", "    else if (fault_.empty()) {\n", "    else if (false) {\n",
                                        "first_comes_back"),
    "a start that doesn't wait": Wrong("stream", " && now - stillSince_ >= still;", " && (still.count() || now < stillSince_);",
                                       "first_comes_back"),
    "a stream of another journal": Wrong("stream", "    if (there.text == here.text && ", "    if (true || ", "another_journal"),
    "journals that are told apart by their last events": Wrong("stream", " && there.hash == here.hash) return;", ") return;", "same_last_event"),
    "hashes of single events": Wrong("stream", "    if (kind_ == Kind::Events) chain_.take(text);\n",
                                     "    if (kind_ == Kind::Events) (chain_ = Chain()).take(text);\n", "test_hashes"),
    "a stream that all feeds may add to": Wrong("stream", '"." + wordOfItsOwn();', '".all";', "new_limits"),
    "a mark that nobody compares": Wrong("streams", "    if (number == learnt_ && ", "    if (false && ", "last_event_is_gone"),
    "streams that nobody looks at again": Wrong("feed", "    if (!wasAway && (now < againAt_ || streams_.areUnderWay())) return;\n", "    if (!wasAway) return;\n",
                                                "lost_while_idle"),
    "connections that are lost without a word": Wrong("feed", "    const bool wasAway = server_->wasAway();\n",
                                                      "    const bool wasAway = false;\n", "test_power"),
    "books that are refused unheard": Wrong("stream", "kind_ == Kind::Newest || run % A_RUN", "run % A_RUN", "book_behind"),
    "a wait that began before": Wrong("stream", "    if (window_.empty()) stillSince_ = since;\n", "", "wait_for_derived"),
    "a shorter journal of another venue": Wrong(
        "feed", "    if (streams_.hasRoom() && now - readAt_ >= QUIET) streams_.compareShort(*server_);\n", "", "another_journal"),
    "a stream that lost its end": Wrong("stream", "    if (isLost_ && now - lostSince_ >= LOSING)\n", "    if (false)\n",
                                        "lost_streams"),
    "books that are told once": Wrong("feed", " || streams_.areBooksOld(*server_)) return true;", ") return true;", "lost_books"),
    "a server that reaches no other, for ever": Wrong("feed", "    if (++unanswered_ < GIVEN_UP) return;\n", "    if (GIVEN_UP) return;\n", "partitions"),
    "an outage that fills the log": Wrong("feed", "said_.insert(what).second)", "(said_.insert(what).second || true))", "test_one_server"),
    "streams that go on while one is lost": Wrong("feed", "    if (streams_.areLost()) return false;\n", "",
                                                  "beside_a_loss"),
    "a stream that nobody leads": Wrong("server", "    if (leader.empty()) throw ", "    if (false) throw ", "test_one_server"),
    "a feed at whatever server is first": Wrong("feed", "if (hasMoved_ || ", "if (true || ", "test_leader"),
    "readers without bounds": Wrong(SCRIPT, "rights_of(names, it))}\", limits, ", "rights_of(names, it))}\", ", "bounds_of_readers"),
    "streams of others": Wrong("server", "    needVersion(is);\n", "", "other_version"),
    "limits that stay as they were": Wrong("feed", "(wantsLimits_ && streams_.areEventsThere()) || ", "", "test_limits"),
    "limits of a feed that waits": Wrong(
        "stream", "    const long end = place_.end;\n",
        "    const long end = place_.end;\n    if (isOther()) server.change(settings_, {place_.subject});\n", "waiting_with_other_limits"),
    "limits that bring back what was read": Wrong("stream", "claim_ = subject() + ", "claim_ = isOther() ? place_.subject : subject() + ",
                                                  "new_limits"),
    "limits by turns": Wrong("feed", "(!hasBegun_ && streams_.areOther())", "streams_.areOther()", "two_of_other_limits"),
    "limits that a feed is to set for ever": Wrong("feed", "    wantsLimits_ = false;  // Another feed may have set them meanwhile.\n", "",
                                                   "limits_that_another"),
    "streams made anew as another's claims": Wrong("server", "stream.isClaimed && subject != subjects.front(), ", "stream.isClaimed, ",
                                                   "made_anew"),
    "a lost claim as a silent server": Wrong("feed", "    if (isSilent && isClaimLost()) return noteClaim();\n", "", "lost_claim"),
    "a claim that is lost without a word": Wrong("feed", "    noteClaim();\n", "", "lost_claim"),
    "figures without a lost claim": Wrong("feed", "    figures_.claimsLost++;\n", "", "lost_claim"),
    "streams that are read on for ever": Wrong("feed", "    if (streams_.areStuck()) streams_.lookAhead();\n", "", "more_than_is_held"),
    "streams that wait until all is read": Wrong("streams", "(events().isRead() || areFull())", "events().isRead()", "more_than_is_held"),
    "books in the midst of a journal": Wrong("streams", "    if (books_->size() || !events().isRead()) return;\n",
                                             "    if (books_->size()) return;\n", "more_than_is_held"),
    "messages of what nobody compared": Wrong("streams", "std::min(events().before(), sure_)", "events().before()", "nothing_of_other"),
    "streams that are silent with nothing under way": Wrong("stream", "sent_ <= std::max(acknowledged_, before())",
                                                            "sent_ <= acknowledged_", "nothing_under_way"),
    "a feed without a bound": Wrong("streams", "    return isMarkLearnt_ && !areFull();\n", "    return isMarkLearnt_;\n", "test_bounded"),
    "drop copies of others": Wrong("streams", "        members_[member - 1]->put(", "        members_[0]->put(", "test_streams"),
    "a trade for each report": Wrong("trades", "    if (place_.empty()) {\n", "    if (place_.empty() && false) {\n", "test_streams"),
    "levels that stay": Wrong("books", '    if (level.quantity == "0") side.erase(price);\n    else side', "    side", "test_streams"),
    "figures of nothing": Wrong("feed", "    figures_.published = events.before();\n", "", "test_page"),
    "a fault with its folder": Wrong("settings", '"can\'t read the settings: " + path', '__FILE__ + path', "test_traces"),
    "passwords that all may read": Wrong("settings", "    if (it.st_mode & 077) throw", "    if (false) throw", "wrong_settings"),
    "settings that are passed over": Wrong("settings", " || !NAMES.count(name)) throw", ") throw", "wrong_settings"),
}
