#pragma once

// The messages of the market, as market_data.h tells them: the whole (35=W), what has changed (35=X), and why not
// (35=Y).

#include <quickfix/Message.h>

#include <string>

#include "market_data.h"
#include "market_requests.h"
#include "ticks.h"

namespace edge {

// Types of entries (269).
constexpr char BID = '0', OFFER = '1', TRADE = '2';

/// All that a request asks for of a symbol.
FIX::Message wholeOf(const MarketRequest &request, const std::string &symbol, const Tick &tick, const Picture &now);

/// What has changed of a symbol since the client was told.
FIX::Message changesOf(const MarketRequest &request, const std::string &symbol, const Tick &tick, const Picture &before,
                       const Picture &now);

/// Why a request isn't granted.
FIX::Message marketRefusal(const FIX::Message &asked, const MarketRefused &why);

}
