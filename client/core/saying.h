// Sentences about files, for who makes a reading of them. Those that screens use are in reading.h.
#pragma once

#include "reading.h"

namespace client {

using Places = std::vector<std::size_t>; // in Reading::files

// So many names stand in one sentence.
inline constexpr std::size_t most_named = 3;

// One after the other.
Said sentences(Said one, Said other);
// Why a thing is not read, and what to do about it.
Said reason(const Obstacle &obstacle);
Said advice(const Obstacle &obstacle);
// "a, b, c", and how many more where there are many. There is at least one.
Said list(const std::vector<File> &files, const Places &places);
// The different files among some: those that are no copies.
Places originals(const std::vector<File> &files, const Places &places);
// Two files or more for one thing.
Said contradiction(const std::vector<File> &files, const Places &places);

} // namespace client
