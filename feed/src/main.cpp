#include <sys/signalfd.h>
#include <sys/stat.h>

#include <csignal>
#include <iostream>
#include <memory>

#include "feed.h"
#include "lines.h"
#include "page.h"
#include "starter.h"

namespace {

const char *const USAGE =
    "usage: gikvand-feed [--check] SETTINGS\n"
    "       gikvand-feed --help|--version";

/// A descriptor of the signals that end it, which are held back from all threads.
edge::Descriptor ends() {
    sigset_t signals;
    sigemptyset(&signals);
    sigaddset(&signals, SIGTERM);
    sigaddset(&signals, SIGINT);
    ::pthread_sigmask(SIG_BLOCK, &signals, nullptr);
    return edge::Descriptor(::signalfd(-1, &signals, SFD_NONBLOCK | SFD_CLOEXEC));
}

int actForVersion() {
    std::cout << "gikvand-feed " << GIKVAND_VERSION << std::endl;
    return std::cout ? 0 : 1;
}

/// Tells the words that there are.
int actForHelp() {
    std::cout << USAGE << "\n\ngikvand-feed(8) says what they do, and what SETTINGS may have.\n";
    return std::cout.flush() ? 0 : 1;
}

int act(const std::string &path, bool checks) {
    edge::Starter starter;
    const feed::Settings settings = feed::readSettings(path);
    if (checks) {
        std::cout << "the settings are right\n";
        return 0;
    }
    const edge::Descriptor signals = ends();
    feed::Figures figures;
    std::unique_ptr<edge::Page> page;
    if (settings.page)
        page.reset(new edge::Page(
            settings.page, [&] { return figures.text(); }, [&] { return figures.figures(); }));
    feed::Feed it(settings, figures, signals.get());
    starter.tell();
    it.run();
    edge::say("", "stopped");
    return 0;
}

}

int main(int count, char **given) {
    const std::vector<std::string> all(given + 1, given + count);
    if (all == std::vector<std::string>{"--version"}) return actForVersion();
    if (all == std::vector<std::string>{"--help"}) return actForHelp();
    const bool checks = all.size() == 2 && all[0] == "--check";
    if ((all.size() != 1 && !checks) || all.back().empty() || all.back()[0] == '-') {
        std::cerr << USAGE << "\n";
        return 1;
    }
    ::umask(077);
    ::signal(SIGPIPE, SIG_IGN);  // Who reads its lines may go away.
    edge::speakAs("gikvand-feed");
    try {
        return act(all.back(), checks);
    } catch (const std::exception &why) {
        edge::say("", why.what());
        return 1;
    }
}
