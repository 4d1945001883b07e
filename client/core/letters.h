// Letters of UTF-8, one by one. Written here since the libraries' decoders do not tell which bytes were none.
#pragma once

#include <cstddef>
#include <optional>
#include <string_view>

namespace client {

// A letter at the front of some bytes, and how many bytes it has.
struct Letter {
    char32_t code = 0;
    std::size_t length = 0;
};

// None where the bytes, of which there is at least one, begin with no letter.
std::optional<Letter> letter_at_front(std::string_view bytes);

} // namespace client
