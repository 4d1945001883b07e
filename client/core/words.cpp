#include "words.h"

#include "figures.h"

#include <utility>

namespace client {

namespace {

struct Entry {
    std::string_view key;
    std::string_view english;
    std::string_view chinese;
};

constexpr Entry table[] = {
#define WORD(name, key, english, chinese) {key, english, chinese},
#include "words_lines.h"
#undef WORD
};

} // namespace

Hole::Hole(Said said) : said_(std::make_shared<const Said>(std::move(said))) {}

std::string Hole::in(Tongue tongue) const {
    if (said_) {
        return said_->in(tongue);
    }
    return tongue == Tongue::english ? english_ : chinese_;
}

std::string Said::in(Tongue tongue) const {
    const std::string_view line = raw(word, tongue);
    std::string text;
    for (std::size_t at = 0; at < line.size(); ++at) {
        const bool is_hole = line[at] == '{' && at + 2 < line.size() && line[at + 2] == '}';
        if (!is_hole) {
            text.push_back(line[at]);
            continue;
        }
        const std::size_t number = static_cast<std::size_t>(line[at + 1] - '0');
        text += number < holes.size() ? holes[number].in(tongue) : std::string(line.substr(at, 3));
        at += 2;
    }
    return text;
}

Said counted(std::size_t number, Word one, Word several, std::vector<Hole> holes) {
    holes.emplace_back(text(static_cast<std::int64_t>(number)));
    return {number == 1 ? one : several, std::move(holes)};
}

Said beside(const std::vector<Said> &all) {
    Said line = all.front();
    for (std::size_t at = 1; at < all.size(); ++at) {
        line = {Word::listing_beside, {std::move(line), all[at]}};
    }
    return line;
}

std::string_view raw(Word word, Tongue tongue) {
    const Entry &entry = table[static_cast<std::size_t>(word)];
    return tongue == Tongue::english ? entry.english : entry.chinese;
}

std::string_view key(Word word) {
    return table[static_cast<std::size_t>(word)].key;
}

} // namespace client
