// What a file is known to be by its content, where it is none of ours.
//
// Only what no file of ours can be is known, not even one that was damaged in one place. Heads hold a day below 36,525
// in four bytes, so of the bytes 4 and 5 both are 0, and after a byte was changed, lost or added one of them still is:
// a text has no such byte. Signatures differ from our marks in two bytes or more; that of a zip archive, which begins
// with PK as corrections do, stands at its front and at its end.
#pragma once

#include "engine.h"

#include <optional>

namespace client {

enum class Known { text, pdf, picture, archive };

// A file's first bytes, as many as are read, and its last ones, as many as `ending_length` where it has so many.
struct Glimpse {
    View front;
    View ending;
    bool is_whole = false; // the front is all of it
};

// So many bytes end a zip archive.
inline constexpr std::size_t ending_length = 22;

std::optional<Known> known_as(const Glimpse &glimpse);

// Letters in UTF-8, GB18030, or UTF-16 with a mark, and no control character but tabs and line ends. Of any length.
bool is_text(View bytes, bool is_whole);

} // namespace client
