#include "replay_turn.h"

#include <fcntl.h>
#include <sys/file.h>

#include <stdexcept>

#include "lines.h"

namespace edge {

namespace {
constexpr std::chrono::seconds PATIENCE(30);
}

ReplayTurn::ReplayTurn(const std::string &folder, const std::string &name) {
    if (folder.empty()) return;
    const std::string path = folder + "/" + name;
    lock_.reset(::open(path.c_str(), O_RDWR | O_CREAT | O_CLOEXEC, 0600));
    if (!lock_) throw std::runtime_error("can't use " + path + ": " + reason());
}

bool ReplayTurn::tryTake() {
    const auto now = Clock::now();
    if (!waits_) since_ = now;
    isTaken_ = lock_ && !::flock(lock_.get(), LOCK_EX | LOCK_NB);
    waits_ = lock_ && !isTaken_ && now - since_ < PATIENCE;
    return !waits_;
}

void ReplayTurn::giveBack() {
    waits_ = false;
    if (isTaken_) ::flock(lock_.get(), LOCK_UN);
    isTaken_ = false;
}

}
