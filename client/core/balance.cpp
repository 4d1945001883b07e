#include "balance.h"

#include <algorithm>

namespace client {

std::optional<Word> imbalance(const Statement &statement) {
    Wide compensations = 0, cuts = 0, payments = 0, penalties = 0, returned = 0;
    for (const Line &line : statement.lines()) {
        compensations += line.compensation.count;
        cuts += line.cut.count;
        payments += line.paid.count;
        penalties += line.penalty.count;
        returned += line.returned.count;
    }
    const Wide total = statement.total().count;
    const Wide shortfall = statement.shortfall().count;
    const Wide filled = std::min(shortfall, penalties);
    if (compensations != total) {
        return Word::check_total;
    }
    if (payments + shortfall != total) {
        return Word::check_covered;
    }
    if (cuts != shortfall - filled) {
        return Word::check_cuts;
    }
    return returned == penalties - filled ? std::nullopt : std::optional(Word::check_returns);
}

} // namespace client
