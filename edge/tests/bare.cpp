// QuickFIX's own acceptor, which answers each order at once: what the edge is measured beside.
//
//   bare SETTINGS            its SocketAcceptor, one thread for all sessions
//   bare SETTINGS threaded   its ThreadedSocketAcceptor, a thread for each connection
//
// An order is acknowledged and filled in the same turn, so that it has the two reports that it has of a venue where
// each finds its other side. Prints `ready`, and ends by a signal.
#include <quickfix/Application.h>
#include <quickfix/FileLog.h>
#include <quickfix/FileStore.h>
#include <quickfix/FixFieldNumbers.h>
#include <quickfix/Session.h>
#include <quickfix/SocketAcceptor.h>
#include <quickfix/ThreadedSocketAcceptor.h>

#include <unistd.h>

#include <atomic>
#include <iostream>
#include <memory>

namespace FIELD = FIX::FIELD;

class Answers : public FIX::Application {
public:
    void onCreate(const FIX::SessionID &) override {}
    void onLogon(const FIX::SessionID &) override {}
    void onLogout(const FIX::SessionID &) override {}
    void toAdmin(FIX::Message &, const FIX::SessionID &) override {}
    void toApp(FIX::Message &, const FIX::SessionID &) throw(FIX::DoNotSend) override {}
    void fromAdmin(const FIX::Message &, const FIX::SessionID &) throw(FIX::FieldNotFound, FIX::IncorrectDataFormat,
                                                                       FIX::IncorrectTagValue,
                                                                       FIX::RejectLogon) override {}

    void fromApp(const FIX::Message &order,
                 const FIX::SessionID &session) throw(FIX::FieldNotFound, FIX::IncorrectDataFormat,
                                                      FIX::IncorrectTagValue, FIX::UnsupportedMessageType) override {
        const std::string number = std::to_string(++orders_);
        tell(order, session, number, "0", "0", order.getField(FIELD::OrderQty), "0");
        tell(order, session, number, "F", "2", "0", order.getField(FIELD::OrderQty));
    }

private:
    void tell(const FIX::Message &order, const FIX::SessionID &session, const std::string &number, const char *event,
              const char *state, const std::string &leaves, const std::string &filled) {
        FIX::Message it;
        it.getHeader().setField(FIELD::MsgType, "8");
        for (const int tag :
             {FIELD::ClOrdID, FIELD::OrderQty, FIELD::Price, FIELD::Side, FIELD::Symbol, FIELD::TransactTime})
            it.setField(tag, order.getField(tag));
        it.setField(FIELD::OrderID, number);
        it.setField(FIELD::ExecID, std::to_string(++reports_));
        it.setField(FIELD::ExecType, event);
        it.setField(FIELD::OrdStatus, state);
        it.setField(FIELD::LeavesQty, leaves);
        it.setField(FIELD::CumQty, filled);
        it.setField(FIELD::AvgPx, filled == "0" ? "0" : order.getField(FIELD::Price));
        if (filled != "0") {
            it.setField(FIELD::LastPx, order.getField(FIELD::Price));
            it.setField(FIELD::LastQty, filled);
        }
        FIX::Session::sendToTarget(it, session);
    }

    std::atomic<long> orders_{0}, reports_{0};
};

int main(int count, char **words) {
    if (count < 2) return 2;
    const FIX::SessionSettings settings((std::string(words[1])));
    Answers answers;
    FIX::FileStoreFactory stores(settings);
    FIX::FileLogFactory logs(settings);
    std::unique_ptr<FIX::Acceptor> acceptor;
    if (count > 2) acceptor.reset(new FIX::ThreadedSocketAcceptor(answers, stores, settings, logs));
    else acceptor.reset(new FIX::SocketAcceptor(answers, stores, settings, logs));
    acceptor->start();
    std::cout << "ready" << std::endl;
    for (;;) ::pause();
}
