#include "server.h"

#include <sys/eventfd.h>
#include <unistd.h>

#include <algorithm>
#include <cstddef>

namespace feed {

namespace {

constexpr int CONNECT = 2000, ASK = 2000, RECONNECT = 500, PING = 2000, WRITE = 2000;  // Milliseconds.
constexpr int SILENT = 2;   // Pings without an answer behind which a server is given up.
constexpr int LAST = 5000;  // Milliseconds for its threads to end in.
constexpr std::size_t MOST_OF_A_URL = 1024;
const char *const DESCRIPTION = "gikvand feed 1";
const char *const EXPECTED = "Nats-Expected-Last-Sequence", *const HASH = "Gikvand-Hash";
const char *const NOBODY = "nobody";  // Claims a stream that is new.
constexpr long SECOND = 1000000000;

/// What libnats says of a call that failed.
std::string reasonOf(natsStatus status) {
    const char *const more = nats_GetLastError(nullptr);
    return more && *more ? more : natsStatus_GetText(status);
}

void need(natsStatus status) {
    if (status != NATS_OK) throw Unanswered(reasonOf(status));
}

void passOver(natsConnection *, natsSubscription *, natsStatus, void *) {}

using Options = std::unique_ptr<natsOptions, void (*)(natsOptions *)>;

Options optionsOf(const Access &access, std::size_t passedOver) {
    natsOptions *made = nullptr;
    need(natsOptions_Create(&made));
    Options it(made, natsOptions_Destroy);
    std::vector<const char *> urls;
    for (const std::string &url : access.servers) urls.push_back(url.c_str());
    std::rotate(urls.begin(), urls.begin() + static_cast<std::ptrdiff_t>(passedOver % urls.size()), urls.end());
    need(natsOptions_SetServers(it.get(), urls.data(), static_cast<int>(urls.size())));
    need(natsOptions_SetNoRandomize(it.get(), true));
    need(natsOptions_SetName(it.get(), "gikvand-feed"));
    need(natsOptions_SetTimeout(it.get(), CONNECT));
    need(natsOptions_SetMaxReconnect(it.get(), -1));
    need(natsOptions_SetReconnectWait(it.get(), RECONNECT));
    need(natsOptions_SetPingInterval(it.get(), PING));
    need(natsOptions_SetMaxPingsOut(it.get(), SILENT));
    need(natsOptions_SetWriteDeadline(it.get(), WRITE));
    need(natsOptions_SetFailRequestsOnDisconnect(it.get(), true));
    need(natsOptions_SetErrorHandler(it.get(), passOver, nullptr));  // Its own one writes to standard error.
    if (!access.user.empty()) need(natsOptions_SetUserInfo(it.get(), access.user.c_str(), access.password.c_str()));
    if (!access.authority.empty()) {
        need(natsOptions_SetSecure(it.get(), true));
        need(natsOptions_LoadCATrustedCertificates(it.get(), access.authority.c_str()));
    }
    return it;
}

/// The subjects as libnats takes them. They refer to these.
std::vector<const char *> pointersTo(const std::vector<std::string> &subjects) {
    std::vector<const char *> pointers;
    for (const std::string &it : subjects) pointers.push_back(it.c_str());
    return pointers;
}

/// The configuration of a stream that takes these subjects.
jsStreamConfig configOf(const StreamSettings &stream, std::vector<const char *> &subjects) {
    jsStreamConfig config;
    jsStreamConfig_Init(&config);
    config.Name = stream.name.c_str();
    config.Description = DESCRIPTION;
    config.Subjects = subjects.data();
    config.SubjectsLen = static_cast<int>(subjects.size());
    config.MaxAge = stream.seconds * SECOND;
    if (stream.bytes) config.MaxBytes = stream.bytes;
    if (stream.ofEachSubject) config.MaxMsgsPerSubject = stream.ofEachSubject;
    config.Replicas = stream.replicas;
    config.DenyDelete = config.DenyPurge = true;
    config.AllowDirect = true;
    return config;
}

/// The subjects that a stream takes which is new.
std::vector<std::string> subjectsOf(const StreamSettings &stream) {
    if (stream.isClaimed) return {stream.subjects.front() + "." + NOBODY};
    return stream.subjects;
}

/// Whether a stream takes the subjects of its settings: one that is claimed has a word behind its own.
bool hasSubjects(const jsStreamConfig &is, const StreamSettings &stream) {
    const std::vector<std::string> subjects(is.Subjects, is.Subjects + is.SubjectsLen);
    if (!stream.isClaimed) return subjects == stream.subjects;
    const std::string front = stream.subjects.front() + ".";
    return subjects.size() == 1 && !subjects.front().compare(0, front.size(), front);
}

/// Whether a stream has the limits of this configuration.
bool hasLimits(const jsStreamConfig &is, const jsStreamConfig &wanted) {
    return is.MaxAge == wanted.MaxAge && is.Replicas == wanted.Replicas &&
           (is.MaxBytes > 0 ? is.MaxBytes : 0) == (wanted.MaxBytes > 0 ? wanted.MaxBytes : 0);
}

void needVersion(const jsStreamConfig &is) {
    const std::string version = is.Description ? is.Description : "";
    if (version != DESCRIPTION)
        throw std::runtime_error(std::string("the stream ") + is.Name + " is another one's, or of another version: '" +
                                 version + "', and not '" + DESCRIPTION + "'");
}

/// A server that is alone tells of a stream what it knew of it, and that nobody leads it.
std::string leaderOf(const std::string &name, const char *is) {
    const std::string leader = is ? is : "";
    if (leader.empty()) throw Unanswered("no server leads the stream " + name);
    return leader;
}

using Info = std::unique_ptr<jsStreamInfo, void (*)(jsStreamInfo *)>;

}

std::string addressOf(const std::string &url) {
    const std::size_t at = url.find("://");
    const std::string address = url.substr(at == std::string::npos ? 0 : at + 3);
    return address.find(':') == std::string::npos ? address + ":4222" : address;
}

Server::Server(const Access &access, std::size_t passedOver, Told told)
    : on_(std::move(told)), told_(::eventfd(0, EFD_NONBLOCK | EFD_CLOEXEC)) {
    const Options options = optionsOf(access, passedOver);
    need(natsOptions_SetReconnectedCB(options.get(), onReconnect, this));
    natsConnection *connection = nullptr;
    need(natsConnection_Connect(&connection, options.get()));
    connection_.reset(connection);
    natsInbox *inbox = nullptr;
    need(natsInbox_Create(&inbox));
    inbox_ = std::string(inbox) + ".";
    natsInbox_Destroy(inbox);
    natsSubscription *answers = nullptr;
    need(natsConnection_Subscribe(&answers, connection, (inbox_ + "*").c_str(), onAnswer, this));
    answers_.reset(answers);
    jsOptions each;
    jsOptions_Init(&each);
    each.Wait = ASK;
    jsCtx *streams = nullptr;
    need(natsConnection_JetStream(&streams, connection, &each));
    streams_.reset(streams);
}

/// The thread of answers may be in a call: it is waited for.
Server::~Server() {
    natsConnection_Close(connection_.get());
    streams_.reset();
    answers_.reset();
    connection_.reset();
    nats_CloseAndWait(LAST);
}

bool Server::isConnected() const {
    return natsConnection_Status(connection_.get()) == NATS_CONN_STATUS_CONNECTED;
}

void Server::read() const {
    std::uint64_t count;
    while (::read(told_.get(), &count, sizeof count) > 0) {}
}

void Server::onAnswer(natsConnection *, natsSubscription *, natsMsg *message, void *self) {
    const Server &it = *static_cast<Server *>(self);
    const std::string word = natsMsg_GetSubject(message) + it.inbox_.size();
    const int size = natsMsg_GetDataLength(message);
    it.on_(word, size > 0 ? std::string(natsMsg_GetData(message), static_cast<std::size_t>(size)) : "");
    natsMsg_Destroy(message);
    const std::uint64_t one = 1;
    if (::write(it.told_.get(), &one, sizeof one) < 0) return;  // It is readable already.
}

void Server::onReconnect(natsConnection *, void *self) {
    Server &it = *static_cast<Server *>(self);
    it.wasAway_ = true;
    const std::uint64_t one = 1;
    if (::write(it.told_.get(), &one, sizeof one) < 0) return;  // It is readable already.
}

bool Server::isAt(const std::string &address) const {
    char url[MOST_OF_A_URL];
    return natsConnection_GetConnectedUrl(connection_.get(), url, sizeof url) == NATS_OK && addressOf(url) == address;
}

Place Server::placeOf(const StreamSettings &stream, const std::function<void()> &made) {
    const std::vector<std::string> subjects = subjectsOf(stream);
    std::vector<const char *> pointers = pointersTo(subjects);
    jsStreamConfig config = configOf(stream, pointers);
    jsStreamInfo *found = nullptr;
    jsErrCode code = static_cast<jsErrCode>(0);
    natsStatus status = js_GetStreamInfo(&found, streams_.get(), config.Name, nullptr, &code);
    const bool isMissing = status == NATS_NOT_FOUND && code == JSStreamNotFoundErr;
    if (isMissing) status = js_AddStream(&found, streams_.get(), &config, nullptr, &code);
    const Info info(found, jsStreamInfo_Destroy);
    need(status);
    if (isMissing) made();
    const jsStreamConfig &is = *info->Config;
    needVersion(is);
    const std::string subject = is.SubjectsLen ? is.Subjects[0] : "";
    return {static_cast<long>(info->State.LastSeq),
            info->Cluster ? leaderOf(stream.name, info->Cluster->Leader) : std::string(), subject,
            stream.isClaimed && subject != subjects.front(), !hasSubjects(is, stream) || !hasLimits(is, config)};
}

void Server::change(const StreamSettings &stream, const std::vector<std::string> &subjects) {
    std::vector<const char *> pointers = pointersTo(subjects);
    jsStreamConfig config = configOf(stream, pointers);
    jsErrCode code = static_cast<jsErrCode>(0);
    need(js_UpdateStream(nullptr, streams_.get(), &config, nullptr, &code));
}

bool Server::get(const std::string &stream, long number, Kept &it) {
    natsMsg *message = nullptr;
    jsErrCode code = static_cast<jsErrCode>(0);
    const auto at = static_cast<std::uint64_t>(number);
    const natsStatus status = js_GetMsg(&message, streams_.get(), stream.c_str(), at, nullptr, &code);
    return isThere(status, code, message, it);
}

bool Server::newest(const std::string &stream, const std::string &subject, Kept &it) {
    natsMsg *message = nullptr;
    jsErrCode code = static_cast<jsErrCode>(0);
    const natsStatus status = js_GetLastMsg(&message, streams_.get(), stream.c_str(), subject.c_str(), nullptr, &code);
    return isThere(status, code, message, it);
}

/// Takes the message that a call brought.
bool Server::isThere(natsStatus status, jsErrCode code, natsMsg *message, Kept &it) {
    const std::unique_ptr<natsMsg, void (*)(natsMsg *)> owned(message, natsMsg_Destroy);
    if (status == NATS_NOT_FOUND && code == JSNoMessageFoundErr) return false;
    need(status);
    it.text.assign(natsMsg_GetData(message), static_cast<std::size_t>(natsMsg_GetDataLength(message)));
    const char *hash = nullptr;
    it.hash = natsMsgHeader_Get(message, HASH, &hash) == NATS_OK ? hash : "";
    return true;
}

void Server::publish(const std::string &subject, const std::string &text, const std::string &hash, long number,
                     const std::string &word) {
    natsMsg *made = nullptr;
    const std::string reply = word.empty() ? word : inbox_ + word;
    need(natsMsg_Create(&made, subject.c_str(), word.empty() ? nullptr : reply.c_str(), text.data(),
                        static_cast<int>(text.size())));
    const std::unique_ptr<natsMsg, void (*)(natsMsg *)> message(made, natsMsg_Destroy);
    need(natsMsgHeader_Set(made, EXPECTED, std::to_string(number - 1).c_str()));
    if (!hash.empty()) need(natsMsgHeader_Set(made, HASH, hash.c_str()));
    need(natsConnection_PublishMsg(connection_.get(), made));
}

}
