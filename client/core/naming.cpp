#include "naming.h"

#include <algorithm>
#include <array>
#include <string>
#include <utility>

namespace client {

namespace {

bool is_digit(char letter) {
    return letter >= '0' && letter <= '9';
}

std::string in_small_letters(std::string_view text) {
    std::string small(text);
    std::transform(small.begin(), small.end(), small.begin(), [](char letter) {
        return letter >= 'A' && letter <= 'Z' ? static_cast<char>(letter - 'A' + 'a') : letter;
    });
    return small;
}

// "2026-10-31-q09" at a place of a name, with no other digit before or behind.
std::optional<Slot> slot_at(std::string_view name, std::size_t at) {
    constexpr std::size_t date_length = 10, length = 14;
    const std::string_view quarter = name.substr(at).substr(std::min(date_length, name.size() - at));
    const bool has_quarter = quarter.size() >= length - date_length && quarter.starts_with("-q") &&
                             is_digit(quarter[2]) && is_digit(quarter[3]);
    const std::size_t end = at + length;
    const bool is_longer = (at > 0 && is_digit(name[at - 1])) || (end < name.size() && is_digit(name[end]));
    const auto day = has_quarter && !is_longer ? day_of(name.substr(at, date_length)) : std::nullopt;
    const int number = has_quarter ? 10 * (quarter[2] - '0') + quarter[3] - '0' : 0;
    return day ? slot_of(day->number, static_cast<std::uint8_t>(number)) : std::nullopt;
}

} // namespace

Naming naming_of(std::string_view path) {
    const std::string name = in_small_letters(path.substr(path.rfind('/') + 1));
    Naming naming;
    constexpr std::array<std::pair<std::string_view, NamedAs>, 3> endings{
        {{".interval", NamedAs::interval}, {".correction", NamedAs::correction}, {".statement", NamedAs::statement}}};
    for (const auto &[ending, as] : endings) {
        if (name.ends_with(ending)) {
            naming.as = as;
        }
    }
    for (std::size_t at = 0; at < name.size(); ++at) {
        if (const auto slot = slot_at(name, at)) {
            naming.slots.push_back(*slot);
        }
    }
    return naming;
}

} // namespace client
