// SHA-256 (FIPS 180-4): the hash by which people tell one another which file they speak of.
#pragma once

#include "engine.h"

#include <string>

namespace client {

// 64 letters, 0 to 9 and a to f.
std::string sha256(View bytes);

} // namespace client
