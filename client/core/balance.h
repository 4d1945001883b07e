// A statement's own sums: nobody gains and nobody loses on the whole.
#pragma once

#include "engine.h"
#include "words.h"

#include <optional>

namespace client {

// The first sum of a statement that does not come out, in words. The statement has as many lines as it says.
std::optional<Word> imbalance(const Statement &statement);

} // namespace client
