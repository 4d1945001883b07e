// Figures, the calendar and the tables of sentences.
#include "calendar.h"
#include "check.h"
#include "figures.h"
#include "words.h"

#include <limits>
#include <set>

using namespace client;

namespace {

void check_money() {
    check::equal(text(Fen{0}), "0.00");
    check::equal(text(Fen{5}), "0.05");
    check::equal(text(Fen{-5}), "−0.05");
    check::equal(text(Fen{-58492}), "−584.92");
    check::equal(text(Fen{115'493}), "1,154.93");
    check::equal(text(Fen{1'000'000'000'000'000'000}), "10,000,000,000,000,000.00");
    check::equal(text(Fen{std::numeric_limits<std::int64_t>::min()}), "−92,233,720,368,547,758.08");
    check::equal(text(Li{200}), "0.200");
    check::equal(text(Li{0}), "0.000");
    check::equal(text(Hao{3'545}), "0.3545");
    check::equal(text(Hao{10'000}), "1.0000");
}

void check_numbers() {
    check::equal(text(std::int64_t{0}), "0");
    check::equal(text(std::int64_t{999}), "999");
    check::equal(text(std::int64_t{1'000}), "1,000");
    check::equal(text(std::int64_t{-1'234'567}), "−1,234,567");
    check::equal(text(Kwh{45'318}), "45,318");
    check::equal(change(Fen{991}), "+9.91");
    check::equal(change(Fen{-991}), "−9.91");
    check::equal(change(Fen{0}), "=");
    check::equal(change(Kwh{1'000}), "+1,000");
    check::equal(change(Kwh{-1}), "−1");
    check::equal(change(Kwh{0}), "=");
}

// What lies beyond the last place is cut, never rounded, and an ellipsis says so.
void check_decimals() {
    check::equal(decimal(0, 7, 0, 4), "0");
    check::equal(decimal(2, 1, 0, 4), "2");
    check::equal(decimal(9, 2, 0, 4), "4.5");
    check::equal(decimal(1, 3, 0, 4), "0.3333…");
    check::equal(decimal(2, 3, 0, 4), "0.6666…");
    check::equal(decimal(1, 16, 2, 4), "0.0625");
    check::equal(decimal(1, 32, 2, 4), "0.0312…");
    check::equal(decimal(1, 1, 2, 4), "1.00");
    check::equal(decimal(1, 100'000, 2, 4), "0.0000…");
    check::equal(decimal(29'999, 10'000, 0, 3), "2.999…");
    check::equal(yuan(1'551'655, 10), "1,551.655");
    check::equal(yuan(67'500, 1), "675.00");
    check::equal(yuan(100, 3), "0.3333…");
    const Wide large = static_cast<Wide>(1'000'000'000'000) * 1'000'000'000'000;
    check::equal(yuan(large, 1), "10,000,000,000,000,000,000,000.00");
    check::equal(yuan(large * 3, large), "0.03");
}

void check_calendar() {
    check::equal(date({0}), "2000-01-01");
    check::equal(date({59}), "2000-02-29");
    check::equal(date({9'800}), "2026-10-31");
    check::equal(date({10'286}), "2028-02-29");
    check::equal(date({36'524}), "2099-12-31");
    check::equal(span({0}), "00:00–00:15");
    check::equal(span({9}), "02:15–02:30");
    check::equal(span({95}), "23:45–24:00");
    check::equal(start({95}), "23:45");
    check::equal(text(Slot{{9'800}, {9}}), "2026-10-31 02:15–02:30");
    check::holds(slot_of(0, 0).has_value(), "day 0 and quarter 0 are a slot like any other");
    check::holds(slot_of(36'524, 95).has_value(), "the last slot");
    check::holds(!slot_of(36'525, 0), "a day past the last");
    check::holds(!slot_of(0, 96), "a quarter past the last");
    check::holds(Slot{{1}, {0}} > Slot{{0}, {95}}, "slots are in the calendar's order");
}

std::set<char> holes(std::string_view line) {
    std::set<char> found;
    for (std::size_t at = line.find('{'); at != line.npos; at = line.find('{', at + 1)) {
        check::holds(at + 2 < line.size() && line[at + 2] == '}', "a hole without its end: " + std::string(line));
        found.insert(line[at + 1]);
    }
    return found;
}

// A sentence is printed and read aloud too: it points at no place of a screen.
void check_places(const std::string &name, const std::string &line) {
    for (const char *place :
         {"on the left", "on the right", "statement above", "figure above", "table above", "chart above", "table below",
          "chart below", "左侧", "右侧", "左边", "右边", "上方", "下方", "上表", "下表"}) {
        check::holds(line.find(place) == line.npos, name + " points at a place: " + line);
    }
}

void check_word(Word word) {
    const std::string name(key(word));
    const std::string english(raw(word, Tongue::english)), chinese(raw(word, Tongue::chinese));
    check::holds(!english.empty() && !chinese.empty(), name + " lacks a tongue");
    check::holds(holes(english) == holes(chinese), name + " has other holes in English than in Chinese");
    check_places(name, english);
    check_places(name, chinese);
    const Said filled(word, std::vector<Hole>(10, Hole("7")));
    for (const Tongue tongue : {Tongue::english, Tongue::chinese}) {
        check::holds(filled.in(tongue).find('{') == std::string::npos, name + " has an open hole");
    }
}

// Whether a sentence counts things, as in "{1} fen are left over". "{0} of {1} files" is right for one too.
bool is_plural(const std::string &english) {
    for (const std::string things :
         {"fen are", "files", "rows", "quarters", "days", "entries", "bytes", "lines", "plants"}) {
        for (const std::string &counted : {"} " + things, "} more " + things}) {
            const std::size_t end = english.find(counted);
            if (end != english.npos && !(end >= 5 && english.compare(end - 5, 3, "of ") == 0)) {
                return true;
            }
        }
    }
    return false;
}

// "1 fen is left over", not "1 fen are": where English needs it there is a second line for one alone.
void check_singulars() {
    std::set<std::string> keys;
    for (std::size_t word = 0; word < words_in_all; ++word) {
        const bool is_new = keys.emplace(key(static_cast<Word>(word))).second;
        check::holds(is_new, std::string(key(static_cast<Word>(word))) + " stands twice");
    }
    for (std::size_t word = 0; word < words_in_all; ++word) {
        const std::string name(key(static_cast<Word>(word)));
        const std::string english(raw(static_cast<Word>(word), Tongue::english));
        if (!name.ends_with(".one") && is_plural(english)) {
            check::holds(keys.contains(name + ".one"), name + " has no line for one alone: " + english);
        }
    }
}

void check_filling() {
    check::equal(Said(Word::row, {"753"}).in(Tongue::english), "Row 753");
    check::equal(Said(Word::row, {"753"}).in(Tongue::chinese), "编号 753");
    const Said nested(Word::zero, {Said(Word::row, {"3"}), "2026-10-31"});
    check::equal(nested.in(Tongue::english), "Row 3, 2026-10-31: nothing to pay, nothing to get");
    check::equal(nested.in(Tongue::chinese), "编号 3，2026-10-31：不付不收");
    // What fills a hole is not looked through for holes again: names of plants come from outside.
    check::equal(Said(Word::row, {"{0}"}).in(Tongue::english), "Row {0}");
}

} // namespace

int main() {
    check_money();
    check_numbers();
    check_decimals();
    check_calendar();
    for (std::size_t word = 0; word < words_in_all; ++word) {
        check_word(static_cast<Word>(word));
    }
    check_singulars();
    check_filling();
    return check::passed("figures");
}
