#pragma once

#include <quickfix/Application.h>
#include <quickfix/MessageStore.h>
#include <quickfix/Utility.h>

#include "files.h"
#include "log.h"
#include "member_session.h"
#include "record.h"
#include "settings.h"
#include "store.h"

namespace edge {

/// What the library calls for the session of a desk: each call goes there.
class Application : public FIX::Application {
public:
    explicit Application(MemberSession &desk) : desk_(desk) {}

    void onCreate(const FIX::SessionID &) override {}
    void onLogon(const FIX::SessionID &) override { desk_.loggedOn(); }
    void onLogout(const FIX::SessionID &) override { desk_.loggedOut(); }
    void toAdmin(FIX::Message &, const FIX::SessionID &) override {}
    void toApp(FIX::Message &, const FIX::SessionID &) throw(FIX::DoNotSend) override {}
    void fromAdmin(const FIX::Message &, const FIX::SessionID &) throw(FIX::FieldNotFound, FIX::IncorrectDataFormat,
                                                                       FIX::IncorrectTagValue,
                                                                       FIX::RejectLogon) override {}
    void fromApp(const FIX::Message &message,
                 const FIX::SessionID &session) throw(FIX::FieldNotFound, FIX::IncorrectDataFormat,
                                                      FIX::IncorrectTagValue, FIX::UnsupportedMessageType) override;

private:
    MemberSession &desk_;
};

/// Makes the store of the session, in its member's record, and knows it.
class Stores : public FIX::MessageStoreFactory {
public:
    Stores(Record &record, int desk) : record_(record), desk_(desk) {}

    FIX::MessageStore *create(const FIX::SessionID &session) override;
    void destroy(FIX::MessageStore *store) override;

    /// That of the session, once the library has asked for it.
    Store &store() { return *store_; }

private:
    Record &record_;
    const int desk_;
    Store *store_ = nullptr;
};

/// Makes the log of the session, which it knows, and the one of what belongs to none, which is written at once.
class Logs : public FIX::LogFactory {
public:
    Logs(const std::string &folder, const LogBounds &bounds, int desk)
        : folder_(folder), global_(folder + "/" + deskName("GLOBAL", desk)), bounds_(bounds) {
        FIX::file_mkdir(folder.c_str());
    }

    FIX::Log *create() override { return new Log(global_, bounds_, false); }
    FIX::Log *create(const FIX::SessionID &session) override {
        return log_ = new Log(filesOf(folder_, session), bounds_, true);
    }
    void destroy(FIX::Log *log) override { delete log; }

    /// That of the session, once the library has asked for it.
    Log &log() { return *log_; }

private:
    const std::string folder_, global_;
    const LogBounds bounds_;
    Log *log_ = nullptr;
};

/// Where what is kept of the member of these settings stands, and that, not opened yet.
std::string recordPath(const Settings &settings);
std::unique_ptr<Record> recordOf(const Settings &settings);

}
