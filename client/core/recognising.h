// What a file is, by its content: the engine alone says whether it is accepted.
#pragma once

#include "reading.h"

namespace client {

// So many bytes of a file are read, by its path within the folder.
std::size_t most_of(const std::string &path);

// The form of a file that was read; `is_whole` where it was read to its end.
Form recognised(const std::string &path, const Content &content, bool is_whole);

// Day by bytes 2 to 5, quarter by byte 6, where both are within their ranges.
std::optional<Slot> slot_by_head(View bytes);

// Whether the bytes are a statement of either form with all its lines, in order, whose sums come out. Its slot, its
// terms and the number that says whether it is averaged are within the ranges.
bool is_whole_statement(View bytes);

} // namespace client
