#pragma once

namespace edge {

/// The name, for sqlite3_open_v2, of files that are read in large pieces as long as nothing was written to them. A
/// start reads all of a record, page by page: where its folder is on a volume each of these reads is asked of another
/// machine. It is called behind all that sqlite3_config is told.
const char *readAhead();

}
