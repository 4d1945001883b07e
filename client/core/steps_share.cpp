// A payer's share.
#include "phrases.h"
#include "steps.h"

#include <algorithm>

namespace client {

namespace {

// Of many rounds the first and the last ones are told one by one, and those between them in one sentence.
constexpr std::size_t most_rounds_told = 6;
constexpr std::size_t first_rounds_told = 3;
constexpr std::size_t last_rounds_told = 2;

} // namespace

void Steps::share() {
    if (is_called() && !is_liable(row())) {
        say(ruled(Word::call_above, Word::call_above_average),
            {text(line().called[0]), text(line().called[1]), std::to_string(rules().terms.baseline),
             baseline(row(), rules())});
    }
    if (quarter_.total == Fen{0}) {
        return say(Word::share_nothing);
    }
    if (line().weight == Kwh{0}) {
        return row().kind == Kind::thermal
                   ? say(ruled(Word::weight_baseline, Word::weight_baseline_average), {baseline(row(), rules())})
                   : say(Word::weight_still);
    }
    say(ruled(Word::share_total, Word::share_total_average),
        {std::to_string(rules().terms.baseline), text(quarter_.total)}, text(quarter_.total));
    weight();
    cap();
    if (line().cap == Fen{0}) {
        return say(Word::cap_zero);
    }
    const std::string first = part_of(quarter_.total, line().weight.count, quarter_.weight.count);
    say(Word::share_first,
        {text(quarter_.weight), text(quarter_.total), text(line().weight), first,
         rate(quarter_.total, quarter_.weight)},
        first);
    rounds_of_others();
    own_part();
}

void Steps::weight() {
    if (row().kind != Kind::thermal) {
        return say(Word::weight_renewable, {text(line().weight)});
    }
    // All its energy above the average is in the first band: no unit is above its baseline.
    if (rules().average) {
        return say(Word::weight_thermal_average, {std::to_string(rules().factors[0]), text(row().metered),
                                                  text(baseline_of(row(), rules())), text(line().weight)});
    }
    std::vector<Hole> holes{std::to_string(rules().terms.baseline)};
    for (const int end : rules().band_ends) {
        holes.emplace_back(std::to_string(end));
    }
    for (const int factor : rules().factors) {
        holes.emplace_back(std::to_string(factor));
    }
    for (const Kwh energy : bands_of(row(), rules())) {
        holes.emplace_back(text(energy));
    }
    holes.emplace_back(text(line().weight));
    say(Word::weight_thermal, holes);
}

void Steps::cap() {
    const Ratio &part = rules().cap_part(row().kind);
    say(Word::cap,
        {text(row().metered), text(rules().tariff), decimal(part.numerator, part.denominator, 0, 3),
         cut_to_fen(cap_of(row(), rules()))},
        text(line().cap));
}

void Steps::rounds_of_others() {
    const std::size_t rounds = rounds_before();
    const bool is_told_in_full = rounds <= most_rounds_told;
    for (std::size_t round = 0; round < rounds; ++round) {
        if (is_told_in_full || round < first_rounds_told || round >= rounds - last_rounds_told) {
            others(quarter_.rounds[round], round + 1);
        } else if (round == first_rounds_told) {
            others(first_rounds_told, rounds - last_rounds_told);
        }
    }
}

void Steps::others(const Round &round, std::size_t number_of_round) {
    std::vector<RowId> ids;
    for (const std::size_t position : round.closed) {
        ids.push_back(quarter_.rows[position].id);
    }
    say(ids.size() == 1 ? Word::share_others_one : Word::share_others,
        {std::to_string(number_of_round), listed(ids, name_of_), text(round.caps), text(round.left),
         text(round.left_weight)},
        text(round.left));
}

// The rounds at [from, to), which are several.
void Steps::others(std::size_t from, std::size_t to) {
    std::vector<RowId> ids;
    Fen caps;
    for (std::size_t round = from; round < to; ++round) {
        for (const std::size_t position : quarter_.rounds[round].closed) {
            ids.push_back(quarter_.rows[position].id);
        }
        caps += quarter_.rounds[round].caps;
    }
    std::sort(ids.begin(), ids.end());
    const Round &last = quarter_.rounds[to - 1];
    say(Word::share_rounds,
        {std::to_string(from + 1), std::to_string(to), listed(ids, name_of_), text(caps), text(last.left),
         text(last.left_weight)},
        text(last.left));
}

void Steps::own_part() {
    const unsigned closing = line().closing;
    if (closing == 1) {
        return say(Word::closed_first, {text(line().cap)}, text(line().cap));
    }
    if (closing > 1) {
        const Round &round = quarter_.rounds[closing - 1];
        const std::string part = part_of(round.rest, line().weight.count, round.weight.count);
        return say(Word::closed,
                   {std::to_string(closing), text(round.rest), text(line().weight), text(round.weight), part,
                    text(line().cap)},
                   text(line().cap));
    }
    if (quarter_.rounds.empty()) {
        say(Word::share_stands);
    } else {
        const std::string part = part_of(quarter_.rest, line().weight.count, quarter_.open_weight.count);
        say(Word::share_rest,
            {text(quarter_.rest), text(quarter_.open_weight), rate(quarter_.rest, quarter_.open_weight),
             text(line().weight), part},
            part);
    }
    leftover(quarter_.payments, Word::fen_pays);
}

} // namespace client
