#include "phrases.h"

#include <algorithm>

namespace client {

namespace {

// More names than this, each with its id, would hide the figures of the sentence.
constexpr std::size_t most_by_name = 3;
constexpr std::size_t most_by_id = 8;

bool are_named(const std::vector<RowId> &ids, const Namer &name_of) {
    return ids.size() <= most_by_name &&
           std::any_of(ids.begin(), ids.end(), [&](RowId id) { return has_name(id, name_of); });
}

// "a, b and c"; or "a, b" where more are to follow.
Said joined(const std::vector<Hole> &items, bool is_whole) {
    Said list(Word::list_first, {items.front()});
    for (std::size_t place = 1; place < items.size(); ++place) {
        const bool is_last = is_whole && place + 1 == items.size();
        list = Said(is_last ? Word::list_last : Word::list, {list, items[place]});
    }
    return list;
}

Said listed_by_id(const std::vector<RowId> &ids) {
    const std::size_t told = std::min(ids.size(), most_by_id);
    std::vector<Hole> numbers;
    for (std::size_t place = 0; place < told; ++place) {
        numbers.emplace_back(number(ids[place]));
    }
    const std::size_t more = ids.size() - told;
    const Said list = joined(numbers, more == 0);
    return {Word::list_rows, {more == 0 ? list : Said(Word::list_more, {list, text(static_cast<std::int64_t>(more))})}};
}

} // namespace

Word tier_word(std::size_t tier) {
    return tier == 0 ? Word::tier_1 : Word::tier_2;
}

std::string number(RowId id) {
    return std::to_string(id.number);
}

Said baseline(const Row &row, const Rules &rules) {
    if (rules.average) {
        return {Word::energy, {text(baseline_of(row, rules))}};
    }
    const Word word = row.is_whole_at(rules.terms.baseline) ? Word::baseline : Word::baseline_cut;
    return {word, {std::to_string(rules.terms.baseline), text(baseline_of(row, rules))}};
}

std::string rate(Fen money, Kwh weight) {
    return decimal(money.count, weight.count, 0, 4);
}

std::string part_of(Fen amount, std::int64_t weight, std::int64_t weights) {
    return yuan(static_cast<Wide>(amount.count) * weight, weights);
}

std::string in_yuan(std::int64_t li) {
    return yuan(li, 10);
}

Said cut_to_kwh(const Average &average, const Row &row) {
    const std::int64_t product = row.capacity * average.energy.count;
    if (product % average.capacity == 0) {
        return {Word::energy, {text(average.of(row))}};
    }
    return {Word::energy_cut, {decimal(product, average.capacity, 0, 3), text(average.of(row))}};
}

Said cut_to_fen(const Exactly &fen) {
    if (fen.is_whole()) {
        return {Word::amount, {text(fen.cut())}};
    }
    return {Word::amount_cut, {yuan(fen.numerator, fen.denominator), text(fen.cut())}};
}

Said rounded_to_fen(const Due &due) {
    if (due.together() % 10 == 0) {
        return {Word::amount, {text(due.rounded())}};
    }
    return {Word::amount_rounded, {in_yuan(due.together()), text(due.rounded())}};
}

Said listed(const std::vector<RowId> &ids, const Namer &name_of) {
    if (ids.size() > 1 && !are_named(ids, name_of)) {
        return listed_by_id(ids);
    }
    std::vector<Hole> names;
    for (const RowId id : ids) {
        names.emplace_back(called_within(id, name_of));
    }
    return joined(names, true);
}

} // namespace client
