#include "names.h"

#include "letters.h"

#include <algorithm>
#include <array>
#include <set>
#include <vector>

namespace client {

namespace {

constexpr std::size_t most_letters = 64;

// Control characters, line ends, and letters without ink or width, among them those that turn the direction of writing.
bool is_hidden(char32_t code) {
    struct Range {
        char32_t first, last;
    };
    static constexpr std::array hidden{
        Range{0x00, 0x1f},     Range{0x7f, 0x9f},       Range{0xad, 0xad},     Range{0x34f, 0x34f},
        Range{0x61c, 0x61c},   Range{0x115f, 0x1160},   Range{0x17b4, 0x17b5}, Range{0x180b, 0x180f},
        Range{0x200b, 0x200f}, Range{0x2028, 0x202e},   Range{0x2060, 0x206f}, Range{0x3164, 0x3164},
        Range{0xfdd0, 0xfdef}, Range{0xfe00, 0xfe0f},   Range{0xfeff, 0xfeff}, Range{0xffa0, 0xffa0},
        Range{0xfff0, 0xfffb}, Range{0xe0000, 0xe0fff},
    };
    const bool is_no_letter = (code & 0xfffe) == 0xfffe;
    return is_no_letter || std::any_of(hidden.begin(), hidden.end(),
                                       [&](Range range) { return range.first <= code && code <= range.last; });
}

std::string hexadecimal(std::uint32_t number) {
    std::string reversed;
    do {
        reversed.push_back("0123456789abcdef"[number & 15]);
        number >>= 4;
    } while (number > 0);
    return {reversed.rbegin(), reversed.rend()};
}

std::string escaped_byte(char byte) {
    const auto number = static_cast<unsigned char>(byte);
    return std::string("\\x") + (number < 16 ? "0" : "") + hexadecimal(number);
}

std::string escaped(char32_t code) {
    switch (code) {
    case '\\':
        return "\\\\";
    case '\n':
        return "\\n";
    case '\r':
        return "\\r";
    case '\t':
        return "\\t";
    default:
        return "\\u{" + hexadecimal(code) + "}";
    }
}

// The cells of a line, as RFC 4180 has them, but for line ends in quotes. None where quotes are out of place.
std::optional<std::vector<std::string>> cells_of(std::string_view line) {
    std::vector<std::string> cells(1);
    bool is_quoted = false, was_quoted = false;
    for (std::size_t at = 0; at < line.size(); ++at) {
        const char here = line[at];
        if (is_quoted && here == '"' && at + 1 < line.size() && line[at + 1] == '"') {
            cells.back().push_back(line[++at]);
        } else if (is_quoted && here == '"') {
            is_quoted = false;
        } else if (!is_quoted && here == ',') {
            cells.emplace_back();
            was_quoted = false;
        } else if (!is_quoted && here == '"' && cells.back().empty() && !was_quoted) {
            is_quoted = was_quoted = true;
        } else if (!is_quoted && (here == '"' || was_quoted)) {
            return std::nullopt;
        } else {
            cells.back().push_back(here);
        }
    }
    return is_quoted ? std::nullopt : std::optional(cells);
}

std::string_view trimmed(std::string_view text) {
    const std::size_t first = text.find_first_not_of(' ');
    return first == std::string_view::npos ? "" : text.substr(first, text.find_last_not_of(' ') - first + 1);
}

std::optional<RowId> id_of(std::string_view cell) {
    const std::string_view digits = trimmed(cell);
    unsigned long number = 0;
    for (const char digit : digits) {
        if (digit < '0' || digit > '9' || digits.size() > 5) {
            return std::nullopt;
        }
        number = 10 * number + static_cast<unsigned long>(digit - '0');
    }
    return number >= 1 && number <= 65'535 ? std::optional(RowId{static_cast<std::uint16_t>(number)}) : std::nullopt;
}

// What prints of a cell; none where that is too long for a name.
std::optional<std::string> name_of(std::string_view cell) {
    std::string name;
    while (!cell.empty()) {
        const auto letter = letter_at_front(cell);
        if (letter && !is_hidden(letter->code)) {
            name += cell.substr(0, letter->length);
        }
        cell.remove_prefix(letter ? letter->length : 1);
    }
    name = trimmed(name);
    const auto is_first = [](char byte) { return (static_cast<unsigned char>(byte) & 0xc0u) != 0x80u; };
    const auto letters = static_cast<std::size_t>(std::count_if(name.begin(), name.end(), is_first));
    return letters <= most_letters ? std::optional(name) : std::nullopt;
}

std::optional<std::pair<RowId, Name>> named_by(std::string_view line) {
    const auto cells = cells_of(line);
    if (!cells || cells->size() != 3) {
        return std::nullopt;
    }
    const auto id = id_of((*cells)[0]);
    const auto chinese = name_of((*cells)[1]);
    const auto english = name_of((*cells)[2]);
    if (!id || !chinese || !english || (chinese->empty() && english->empty())) {
        return std::nullopt;
    }
    return std::pair{*id, Name{*chinese, *english}};
}

// The lines, without their ends and without a byte order mark.
std::vector<std::string_view> lines_of(std::string_view text) {
    constexpr std::string_view mark = "\xef\xbb\xbf";
    if (text.substr(0, mark.size()) == mark) {
        text.remove_prefix(mark.size());
    }
    std::vector<std::string_view> lines;
    while (!text.empty()) {
        const std::size_t length = std::min(text.find('\n'), text.size());
        const bool has_return = length > 0 && text[length - 1] == '\r';
        lines.push_back(text.substr(0, has_return ? length - 1 : length));
        text.remove_prefix(std::min(length + 1, text.size()));
    }
    return lines;
}

bool is_head(std::string_view line) {
    return line.substr(0, line.find(',')).find_first_of("0123456789") == std::string_view::npos;
}

} // namespace

Names::Names(View bytes) {
    std::set<RowId> contested;
    bool is_first = true;
    for (const auto line : lines_of({reinterpret_cast<const char *>(bytes.data()), bytes.size()})) {
        const bool is_to_skip = trimmed(line).empty() || (is_first && is_head(line));
        is_first = false;
        if (is_to_skip) {
            continue;
        }
        const auto named = named_by(line);
        if (!named || contested.contains(named->first)) {
            ++passed_over_;
            continue;
        }
        const auto [held, is_new] = names_.insert(*named);
        if (!is_new && held->second != named->second) {
            // Two names for one row: none is chosen.
            contested.insert(named->first);
            names_.erase(held);
            passed_over_ += 2;
        }
    }
}

std::string Names::of(RowId id, Tongue tongue) const {
    const auto found = names_.find(id);
    if (found == names_.end()) {
        return "";
    }
    const auto &[chinese, english] = found->second;
    const std::string &own = tongue == Tongue::chinese ? chinese : english;
    return !own.empty() ? own : tongue == Tongue::chinese ? english : chinese;
}

std::string shown(std::string_view bytes) {
    std::string text;
    while (!bytes.empty()) {
        const auto letter = letter_at_front(bytes);
        if (!letter) {
            text += escaped_byte(bytes[0]);
        } else if (letter->code == '\\' || is_hidden(letter->code)) {
            text += escaped(letter->code);
        } else {
            text += bytes.substr(0, letter->length);
        }
        bytes.remove_prefix(letter ? letter->length : 1);
    }
    return text;
}

} // namespace client
