#pragma once

#include <stdexcept>
#include <string>

namespace edge {

/// Why a configuration of stunnel, or a file of certificates, isn't one member's alone, in words.
class BadService : public std::runtime_error {
    using std::runtime_error::runtime_error;
};

/// What the one service of a configuration says of who comes in, and where to.
struct StunnelService {
    std::string connect, certificates;  // The values of connect and of CAfile.
};

/// Reads the bytes of a configuration of stunnel. It has one service, which asks each client for one of the
/// certificates of CAfile, and no option by which anybody else might come in; or is a BadService.
StunnelService serviceOf(const std::string &configuration);

/// The base64 of the one certificate of a PEM file's bytes, without line ends. Other things in it are a BadService.
std::string onlyCertificate(const std::string &pem);

}
