#include "users.h"

#include <grp.h>
#include <pwd.h>

#include <cstdio>
#include <memory>

#include "lines.h"

namespace edge {

namespace {

struct Close {
    void operator()(std::FILE *file) const { std::fclose(file); }
};

std::string nameOf(uid_t user) {
    const std::unique_ptr<std::FILE, Close> file(std::fopen("/etc/passwd", "re"));
    if (!file) return "";
    while (const passwd *it = ::fgetpwent(file.get()))
        if (it->pw_uid == user) return it->pw_name;
    return "";
}

}

bool findUser(const std::string &name, User &into) {
    const std::unique_ptr<std::FILE, Close> file(std::fopen("/etc/passwd", "re"));
    for (const passwd *it; file && (it = ::fgetpwent(file.get()));)
        if (name == it->pw_name) {
            into = {it->pw_uid, it->pw_gid};
            return true;
        }
    return false;
}

bool findGroup(const std::string &name, gid_t &into) {
    const std::unique_ptr<std::FILE, Close> file(std::fopen("/etc/group", "re"));
    for (const group *it; file && (it = ::fgetgrent(file.get()));)
        if (name == it->gr_name) {
            into = it->gr_gid;
            return true;
        }
    return false;
}

std::string userOf(uid_t number) {
    const std::string name = nameOf(number), words = "uid " + std::to_string(number);
    return name.empty() ? words : shown(name) + " (" + words + ")";
}

}
