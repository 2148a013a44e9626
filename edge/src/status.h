#pragma once

#include <string>

#include "member.h"
#include "page.h"

namespace edge {

/// How a member fares, in one line. Of any thread.
std::string statusOf(const Member &member);

/// A page that says how the member fares.
class StatusPage {
public:
    StatusPage(int port, const Member &member);

private:
    std::string figures() const;

    const Member &member_;
    const Page page_;
};

}
