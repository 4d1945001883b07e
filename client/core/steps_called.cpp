// What follows from calls: a receiver's compensation and its cut, and a reduced unit's penalty.
#include "phrases.h"
#include "steps.h"

namespace client {

std::vector<Hole> Steps::calls_by_tier() const {
    return {text(line().called[0]), text(line().called[1]), std::to_string(rules().terms.baseline),
            std::to_string(rules().tier_2)};
}

void Steps::compensation() {
    if (!is_called()) {
        return say(Word::call_none);
    }
    say(ruled(Word::call_paid, Word::call_paid_average), calls_by_tier());
    paid_tier(0);
    paid_tier(1);
    const Due due = compensation_of(row(), rules(), calls());
    say(Word::earned, {rounded_to_fen(due)}, text(line().compensation));
    cut();
}

void Steps::paid_tier(std::size_t tier) {
    const Said name = tier_word(tier);
    const Stretch held = stretches_of(row(), rules())[tier];
    const Kwh energy = held.energy();
    const bool is_called_here = line().called[tier] > Kwh{0};
    if (is_called_here && energy > Kwh{0}) {
        const Due due = compensation_of(row(), rules(), calls());
        const std::string earned = in_yuan(due.by_tier[tier]);
        return say(ruled(Word::tier_paid, Word::tier_paid_average),
                   {name, text(energy), text(quarter_.prices[tier]), earned, text(held.from), text(held.to)}, earned);
    }
    if (is_called_here) {
        return say(ruled(Word::tier_undelivered, Word::tier_undelivered_average), {name});
    }
    if (energy > Kwh{0}) {
        say(Word::tier_uncalled, {name, text(energy)});
    }
}

void Steps::cut() {
    if (quarter_.shortfall == Fen{0}) {
        return say(Word::cover_all);
    }
    const std::string total = text(quarter_.total), shortfall = text(quarter_.shortfall);
    if (quarter_.weight == Kwh{0}) {
        say(Word::cover_nobody, {total}, shortfall);
    } else {
        say(Word::cover_capped, {total, shortfall}, shortfall);
    }
    if (quarter_.filled == quarter_.shortfall) {
        return say(Word::cover_penalties, {text(quarter_.penalties)});
    }
    const Fen open = quarter_.shortfall - quarter_.filled;
    if (quarter_.filled > Fen{0}) {
        say(Word::cover_penalties_part, {text(quarter_.filled), text(open)}, text(open));
    }
    const std::string part = part_of(open, line().compensation.count, quarter_.total.count);
    say(Word::cut, {text(open), text(line().compensation), total, part}, part);
    leftover(quarter_.cuts, Word::fen_cut);
}

void Steps::penalty() {
    if (!is_called()) {
        // A payer need not be told what it does not owe.
        return role_here() == Role::bystander ? say(Word::penalty_uncalled) : void();
    }
    say(ruled(Word::penalty_why, Word::penalty_why_average), calls_by_tier());
    missing_tier(0);
    missing_tier(1);
    if (line().penalty == Fen{0}) {
        return say(Word::penalty_none);
    }
    const Due due = penalty_of(row(), rules(), calls());
    say(Word::penalty, {rounded_to_fen(due)}, text(line().penalty));
    returned();
}

void Steps::missing_tier(std::size_t tier) {
    const Kwh called = line().called[tier];
    if (called == Kwh{0}) {
        return;
    }
    const Kwh lacks = missing(row(), rules(), line().called)[tier];
    const Said name = tier_word(tier);
    const std::string delivered = text(held_back(row(), rules())[tier]);
    if (lacks == Kwh{0}) {
        return say(Word::penalty_tier_none, {name, text(called), delivered});
    }
    if (quarter_.prices[tier] == Li{0}) {
        return say(Word::penalty_tier_free, {name, text(called), delivered, text(lacks)});
    }
    const std::string owed = in_yuan(penalty_of(row(), rules(), calls()).by_tier[tier]);
    say(Word::penalty_tier,
        {name, text(called), delivered, text(lacks), std::to_string(rules().penalty), text(quarter_.prices[tier]),
         owed},
        owed);
}

void Steps::returned() {
    const std::string penalties = text(quarter_.penalties);
    if (quarter_.filled == Fen{0}) {
        return say(Word::fill_none, {text(line().returned)}, text(line().returned));
    }
    if (quarter_.filled == quarter_.penalties) {
        return say(Word::fill_all, {text(quarter_.shortfall), penalties});
    }
    const Fen over = quarter_.penalties - quarter_.filled;
    say(Word::fill_part, {penalties, text(quarter_.filled), text(over)}, text(over));
    const std::string part = part_of(over, line().penalty.count, quarter_.penalties.count);
    say(Word::returned, {text(over), text(line().penalty), penalties, part}, part);
    leftover(quarter_.returns, Word::fen_returned);
}

} // namespace client
