#include "average.h"

#include <algorithm>

namespace client {

namespace {

// Nothing for wind and solar farms, for a thermal unit the baseline of the terms.
Kwh most_of(const Row &row, const Rules &rules) {
    return row.kind == Kind::thermal ? row.at_percent(rules.terms.baseline) : Kwh{0};
}

} // namespace

std::optional<Average> thermal_average(const std::vector<Row> &rows) {
    Average all;
    for (const Row &row : rows) {
        if (row.kind == Kind::thermal) {
            all.energy += row.metered;
            all.capacity += row.capacity;
        }
    }
    return all.capacity > 0 ? std::optional(all) : std::nullopt;
}

std::optional<Average> ruling_average(const std::vector<Row> &rows, const Rules &rules) {
    const bool is_low =
        std::all_of(rows.begin(), rows.end(), [&](const Row &row) { return row.metered <= most_of(row, rules); });
    return is_low && rules.need > Kwh{0} ? thermal_average(rows) : std::nullopt;
}

} // namespace client
