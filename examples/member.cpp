// A small member on QuickFIX: it logs on at the edge, buys 1 ABC at 50, asks for the market, for the symbols, for its
// orders and its trades, and prints what comes.
//
//     c++ -std=c++14 -Wno-deprecated -o member member.cpp -lquickfix -lpthread
//     ./member PORT DICTIONARY [SENDER [TARGET]]
//
// DICTIONARY is the edge's, /usr/share/gikvand-edge/FIX44-edge.xml, or the library's own FIX44.xml. Where the edge asks
// for a password FIX_USERNAME and FIX_PASSWORD of the environment are written into the Logon. It ends with its standard
// input, and logs out then. The library keeps numbers and messages in the folder `store` of the present one, asks for
// what was missed, and sends again. Its numbers begin with 1 at midnight, UTC, as those of the edge's example: hours that
// differ would cost reports.

#include <quickfix/Application.h>
#include <quickfix/FileStore.h>
#include <quickfix/MessageCracker.h>
#include <quickfix/Session.h>
#include <quickfix/SocketInitiator.h>
#include <quickfix/fix44/MarketDataRequest.h>
#include <quickfix/fix44/NewOrderSingle.h>
#include <quickfix/fix44/OrderMassStatusRequest.h>
#include <quickfix/fix44/SecurityListRequest.h>
#include <quickfix/fix44/TradeCaptureReportRequest.h>

#include <algorithm>
#include <chrono>
#include <cstdlib>
#include <iostream>
#include <mutex>
#include <sstream>
#include <string>

namespace {

/// The member: the library calls it, on a thread of its own.
class Member : public FIX::Application {
public:
    void onCreate(const FIX::SessionID &) override {}
    void onLogon(const FIX::SessionID &session) override {
        isIn_ = true;
        say("logged on");
        order(session);
        market(session);
        ask(session);
    }
    /// A wrong password has no answer, and behind it the edge lets some time pass.
    void onLogout(const FIX::SessionID &) override {
        say(isIn_ ? "logged out" : "logged out: the Logon wasn't taken. Is it the right password, name and hour?");
        isIn_ = false;
    }
    void toAdmin(FIX::Message &message, const FIX::SessionID &) override {
        const char *const name = std::getenv("FIX_USERNAME"), *const password = std::getenv("FIX_PASSWORD");
        if (!name || message.getHeader().getField(FIX::FIELD::MsgType) != "A") return;
        message.setField(FIX::FIELD::Username, name);
        message.setField(FIX::FIELD::Password, password ? password : "");
    }

    /// What was lost on its way isn't sent again by itself: an order of minutes ago may not be wanted any more.
    void toApp(FIX::Message &message, const FIX::SessionID &) throw(FIX::DoNotSend) override {
        FIX::PossDupFlag again(false);
        message.getHeader().getFieldIfSet(again);
        if (again) throw FIX::DoNotSend();
    }

    void fromAdmin(const FIX::Message &message,
                   const FIX::SessionID &) throw(FIX::FieldNotFound, FIX::IncorrectDataFormat, FIX::IncorrectTagValue,
                                                 FIX::RejectLogon) override {
        const std::string type = message.getHeader().getField(FIX::FIELD::MsgType);
        if (type == "3" || type == "5") say(message.toString());  // (of a Logout the Text says why)
    }

    void fromApp(const FIX::Message &message,
                 const FIX::SessionID &) throw(FIX::FieldNotFound, FIX::IncorrectDataFormat, FIX::IncorrectTagValue,
                                               FIX::UnsupportedMessageType) override {
        say(message.toString());
    }

private:
    /// Buys 1 ABC at 50, for the day. Its name is never used again.
    static void order(const FIX::SessionID &session) {
        const auto now = std::chrono::system_clock::now().time_since_epoch().count();
        FIX44::NewOrderSingle it(FIX::ClOrdID(session.getSenderCompID().getString() + "-" + std::to_string(now)),
                                 FIX::Side(FIX::Side_BUY), FIX::TransactTime(FIX::UtcTimeStamp()),
                                 FIX::OrdType(FIX::OrdType_LIMIT));
        it.set(FIX::Symbol("ABC"));
        it.set(FIX::OrderQty(1));
        it.set(FIX::Price(50));
        it.set(FIX::TimeInForce(FIX::TimeInForce_DAY));
        FIX::Session::sendToTarget(it, session);
    }

    /// Asks for all prices of ABC and its last trade, and for what changes from then on.
    static void market(const FIX::SessionID &session) {
        FIX44::MarketDataRequest it(FIX::MDReqID("market"), FIX::SubscriptionRequestType('1'), FIX::MarketDepth(0));
        it.set(FIX::MDUpdateType(1));
        FIX44::MarketDataRequest::NoMDEntryTypes entry;
        for (const char type : {'0', '1', '2'}) {
            entry.set(FIX::MDEntryType(type));
            it.addGroup(entry);
        }
        FIX44::MarketDataRequest::NoRelatedSym symbol;
        symbol.set(FIX::Symbol("ABC"));
        it.addGroup(symbol);
        FIX::Session::sendToTarget(it, session);
    }

    /// Asks which symbols there are, how its orders are, and which trades it had today.
    static void ask(const FIX::SessionID &session) {
        FIX44::SecurityListRequest symbols(FIX::SecurityReqID("symbols"), FIX::SecurityListRequestType(4));
        FIX::Session::sendToTarget(symbols, session);
        FIX44::OrderMassStatusRequest orders(FIX::MassStatusReqID("orders"), FIX::MassStatusReqType(7));
        FIX::Session::sendToTarget(orders, session);
        FIX44::TradeCaptureReportRequest trades(FIX::TradeRequestID("trades"), FIX::TradeRequestType(0));
        FIX::Session::sendToTarget(trades, session);
    }

    void say(std::string text) {
        std::replace(text.begin(), text.end(), '\1', '|');
        const std::lock_guard<std::mutex> lock(mutex_);
        std::cout << text << std::endl;
    }

    std::mutex mutex_;
    bool isIn_ = false;
};

FIX::SessionSettings settingsOf(const std::string &port, const std::string &dictionary, const std::string &sender,
                                const std::string &target) {
    std::stringstream text;
    text << "[DEFAULT]\nConnectionType=initiator\nReconnectInterval=1\nHeartBtInt=30\nFileStorePath=store\n"
         << "StartTime=00:00:00\nEndTime=00:00:00\n"
         << "UseDataDictionary=Y\nDataDictionary=" << dictionary << "\n[SESSION]\nBeginString=FIX.4.4\n"
         << "SenderCompID=" << sender << "\nTargetCompID=" << target << "\nSocketConnectHost=127.0.0.1\n"
         << "SocketConnectPort=" << port << "\n";
    return FIX::SessionSettings(text);
}

}

int main(int count, char **words) {
    if (count < 3 || count > 5) {
        std::cerr << "words: PORT DICTIONARY [SENDER [TARGET]]\n";
        return 2;
    }
    try {
        const FIX::SessionSettings settings =
            settingsOf(words[1], words[2], count > 3 ? words[3] : "DESK-A", count > 4 ? words[4] : "GIKVAND");
        Member member;
        FIX::FileStoreFactory stores(settings);
        FIX::SocketInitiator initiator(member, stores, settings);
        initiator.start();
        for (std::string line; std::getline(std::cin, line);) {}
        initiator.stop();
    } catch (const std::exception &why) {
        std::cerr << "member: " << why.what() << "\n";
        return 1;
    }
    return 0;
}
