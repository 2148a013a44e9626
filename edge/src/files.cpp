#include "files.h"

#include <fcntl.h>
#include <sys/stat.h>
#include <unistd.h>

#include <cerrno>
#include <cstdio>
#include <stdexcept>

#include "descriptor.h"
#include "lines.h"

namespace edge {

namespace {

std::string folderOf(const std::string &path) {
    const std::size_t end = path.rfind('/');
    return end == std::string::npos ? "." : end ? path.substr(0, end) : "/";
}

}

std::string filesOf(const std::string &folder, const FIX::SessionID &session) {
    return folder + "/" + session.getBeginString().getString() + "-" + session.getSenderCompID().getString() + "-" +
           session.getTargetCompID().getString();
}

bool isThere(const std::string &path) {
    struct stat it;
    return !::stat(path.c_str(), &it);
}

long changeTime(const std::string &path) {
    struct stat it;
    return ::stat(path.c_str(), &it) || !it.st_size ? 0 : it.st_ctim.tv_sec;
}

std::string firstBytes(const std::string &path) {
    const Descriptor file(::open(path.c_str(), O_RDONLY | O_CLOEXEC));
    char bytes[64];
    const ssize_t count = file ? ::read(file.get(), bytes, sizeof bytes) : 0;
    return count > 0 ? std::string(bytes, static_cast<std::size_t>(count)) : std::string();
}

void makeFile(const std::string &path) {
    const Descriptor file(::open(path.c_str(), O_RDWR | O_CREAT | O_EXCL | O_CLOEXEC, 0600));
    if (!file && errno != EEXIST) throw std::runtime_error("can't make " + path + ": " + reason());
}

void syncFoldersOf(const std::string &path) {
    for (std::string folder = path, inner; folder != "." && folder != inner;) {
        inner = folder;
        folder = folderOf(folder);
        if (isThere(folder + "/.") && !::access(folder.c_str(), R_OK)) syncFolder(folder);
    }
}

void writeAll(int fd, const std::string &bytes, const std::string &path) {
    for (std::size_t at = 0; at < bytes.size();) {
        const ssize_t done = ::write(fd, bytes.data() + at, bytes.size() - at);
        if (done < 0 && errno == EINTR) continue;
        if (done <= 0) throw std::runtime_error("can't write to " + path + ": " + reason());
        at += static_cast<std::size_t>(done);
    }
}

void writeWhole(const std::string &path, const std::string &bytes) {
    const std::string part = path + ".new";
    const Descriptor file(::open(part.c_str(), O_RDWR | O_CREAT | O_TRUNC | O_CLOEXEC, 0600));
    if (!file) throw std::runtime_error("can't make " + part + ": " + reason());
    writeAll(file.get(), bytes, part);
    if (::fsync(file.get())) throw std::runtime_error("can't sync " + part + ": " + reason());
    if (std::rename(part.c_str(), path.c_str()))
        throw std::runtime_error("can't rename " + part + " to " + path + ": " + reason());
    syncFolder(folderOf(path));
}

void syncFolder(const std::string &folder) {
    const Descriptor it(::open(folder.c_str(), O_RDONLY | O_DIRECTORY | O_CLOEXEC));
    if (!it || (::fsync(it.get()) && errno != EINVAL))  // Not every disk has that for folders.
        throw std::runtime_error("can't sync the folder " + folder + ": " + reason());
}

}
