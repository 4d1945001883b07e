#include "letters.h"

namespace client {

std::optional<Letter> letter_at_front(std::string_view bytes) {
    const auto byte = [&](std::size_t at) { return static_cast<unsigned char>(bytes[at]); };
    const unsigned first = byte(0);
    if (first < 0x80) {
        return Letter{first, 1};
    }
    const std::size_t length = first >= 0xf0 ? 4 : first >= 0xe0 ? 3 : 2;
    if (first < 0xc2 || first > 0xf4 || bytes.size() < length) {
        return std::nullopt;
    }
    char32_t code = first & (0x7fu >> length);
    for (std::size_t at = 1; at < length; ++at) {
        if ((byte(at) & 0xc0u) != 0x80u) {
            return std::nullopt;
        }
        code = code << 6 | (byte(at) & 0x3fu);
    }
    // Longer than need be, one half of a pair, or beyond the last letter.
    const bool is_long = (length == 3 && code < 0x800) || (length == 4 && code < 0x10000);
    const bool is_half = code >= 0xd800 && code <= 0xdfff;
    return is_long || is_half || code > 0x10ffff ? std::nullopt : std::optional(Letter{code, length});
}

} // namespace client
