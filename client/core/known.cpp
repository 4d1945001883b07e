#include "known.h"

#include "letters.h"

#include <algorithm>
#include <array>
#include <string_view>

namespace client {

namespace {

using namespace std::string_view_literals;

std::string_view letters_of(View bytes) {
    return {reinterpret_cast<const char *>(bytes.data()), bytes.size()};
}

// Tabs, line ends and page ends are no control characters of a text.
bool is_control(char32_t code) {
    return (code < 0x20 && code != '\t' && code != '\n' && code != '\f' && code != '\r') || code == 0x7f;
}

// Text, letter by letter. `length_at_front` tells how many bytes the first letter has, 0 where there is none; a letter
// of at most `longest` bytes may be cut at the end of what was read.
template <class LengthAtFront>
bool is_of_letters(std::string_view bytes, bool is_whole, std::size_t longest, LengthAtFront length_at_front) {
    while (!bytes.empty()) {
        const std::size_t length = length_at_front(bytes);
        if (length == 0) {
            return !is_whole && bytes.size() < longest;
        }
        bytes.remove_prefix(length);
    }
    return true;
}

std::size_t utf8_length(std::string_view bytes) {
    const auto letter = letter_at_front(bytes);
    return letter && !is_control(letter->code) ? letter->length : 0;
}

// One byte, two, or four of which the second and the fourth are digits.
std::size_t gb18030_length(std::string_view bytes) {
    const auto is_within = [&](std::size_t at, unsigned first, unsigned last) {
        return at < bytes.size() && first <= static_cast<unsigned char>(bytes[at]) &&
               static_cast<unsigned char>(bytes[at]) <= last;
    };
    if (is_within(0, 0, 0x7f)) {
        return is_control(static_cast<unsigned char>(bytes[0])) ? 0 : 1;
    }
    if (!is_within(0, 0x81, 0xfe)) {
        return 0;
    }
    if (is_within(1, 0x40, 0xfe) && !is_within(1, 0x7f, 0x7f)) {
        return 2;
    }
    return is_within(1, '0', '9') && is_within(2, 0x81, 0xfe) && is_within(3, '0', '9') ? 4 : 0;
}

// The unit of UTF-16 at the front; none where a byte is missing.
std::optional<char32_t> unit_at(std::string_view bytes, std::size_t at, bool is_big) {
    if (bytes.size() < at + 2) {
        return std::nullopt;
    }
    const auto high = static_cast<unsigned char>(bytes[at + (is_big ? 0 : 1)]);
    const auto low = static_cast<unsigned char>(bytes[at + (is_big ? 1 : 0)]);
    return static_cast<char32_t>(high << 8 | low);
}

std::size_t utf16_length(std::string_view bytes, bool is_big) {
    const auto is_half = [](std::optional<char32_t> unit, char32_t first) {
        return unit && *unit >= first && *unit < first + 0x400;
    };
    const auto unit = unit_at(bytes, 0, is_big);
    if (is_half(unit, 0xd800)) {
        return is_half(unit_at(bytes, 2, is_big), 0xdc00) ? 4 : 0;
    }
    return unit && !is_half(unit, 0xdc00) && !is_control(*unit) ? 2 : 0;
}

bool is_utf16(std::string_view text, bool is_whole) {
    const bool is_big = text.starts_with("\xfe\xff"sv);
    return (is_big || text.starts_with("\xff\xfe"sv)) &&
           is_of_letters(text, is_whole, 4, [&](std::string_view bytes) { return utf16_length(bytes, is_big); });
}

struct Signature {
    std::string_view front;
    Known of;
};

constexpr std::array signatures{
    Signature{"\x89PNG\r\n\x1a\n"sv, Known::picture},
    Signature{"\xff\xd8\xff\xdb"sv, Known::picture},
    Signature{"\xff\xd8\xff\xe0"sv, Known::picture},
    Signature{"\xff\xd8\xff\xe1"sv, Known::picture},
    Signature{"\xff\xd8\xff\xee"sv, Known::picture},
    Signature{"GIF87a"sv, Known::picture},
    Signature{"GIF89a"sv, Known::picture},
    Signature{"II*\0"sv, Known::picture},
    Signature{"MM\0*"sv, Known::picture},
    Signature{"\xd0\xcf\x11\xe0\xa1\xb1\x1a\xe1"sv, Known::archive}, // office files of before 2007
    Signature{"7z\xbc\xaf\x27\x1c"sv, Known::archive},
    Signature{"Rar!\x1a\x07"sv, Known::archive},
    Signature{"\x1f\x8b\x08"sv, Known::archive},
    Signature{"\xfd\x37zXZ\0"sv, Known::archive},
};

bool is_digit(char letter) {
    return letter >= '0' && letter <= '9';
}

bool is_pdf(std::string_view front) {
    return front.size() > 7 && front.starts_with("%PDF-") && is_digit(front[5]) && front[6] == '.' &&
           is_digit(front[7]);
}

// Its front has the version that is needed to unpack it where a correction has two bytes 0, and its end has numbers 0
// where an entry of a correction has its kind.
bool is_zip(std::string_view front, std::string_view ending) {
    const bool has_front = front.size() > 5 && front.starts_with("PK\3\4"sv) && front[4] != 0 && front[5] == 0;
    return has_front && ending.size() == ending_length && ending.starts_with("PK\5\6\0\0\0\0"sv) &&
           ending.ends_with("\0\0"sv);
}

} // namespace

bool is_text(View bytes, bool is_whole) {
    const std::string_view text = letters_of(bytes);
    return is_of_letters(text, is_whole, 4, utf8_length) || is_of_letters(text, is_whole, 4, gb18030_length) ||
           is_utf16(text, is_whole);
}

std::optional<Known> known_as(const Glimpse &glimpse) {
    const std::string_view front = letters_of(glimpse.front);
    const auto found = std::find_if(signatures.begin(), signatures.end(),
                                    [&](const Signature &signature) { return front.starts_with(signature.front); });
    if (found != signatures.end()) {
        return found->of;
    }
    if (is_pdf(front)) {
        return Known::pdf;
    }
    if (is_zip(front, letters_of(glimpse.ending))) {
        return Known::archive;
    }
    // What is shorter than a head may be the front of one. The shorter head of an interval file is enough: its day is
    // in it, which no text has.
    const bool is_long = glimpse.front.size() > ph_form.head;
    return is_long && is_text(glimpse.front, glimpse.is_whole) ? std::optional(Known::text) : std::nullopt;
}

} // namespace client
