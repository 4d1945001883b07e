#include "duties.h"

#include <algorithm>

namespace client {

namespace {

bool is_thermal(const Row &row) {
    return row.kind == Kind::thermal;
}

// Energies are never below 0.
Kwh above(Kwh energy, Kwh floor) {
    return std::max(energy - floor, Kwh{0});
}

} // namespace

std::string load_of(const Row &row, unsigned least, unsigned most) {
    if (!is_thermal(row) || row.capacity == 0) {
        return {};
    }
    return decimal(static_cast<Wide>(row.metered.count) * 100, row.at_percent(100).count, least, most);
}

Kwh baseline_of(const Row &row, const Rules &rules) {
    return rules.average ? rules.average->of(row) : row.at_percent(rules.terms.baseline);
}

Role role_of(const Row &row, const Rules &rules) {
    if (!is_thermal(row)) {
        return row.status == Status::normal ? Role::payer : Role::bystander;
    }
    if (row.status == Status::accident) {
        return Role::bystander;
    }
    if (row.metered >= baseline_of(row, rules)) {
        return Role::payer;
    }
    return row.status == Status::normal ? Role::receiver : Role::bystander;
}

// An average may lie where tier 2 is: then nothing of tier 1 counts, and of tier 2 what is below it.
std::array<Stretch, 2> stretches_of(const Row &row, const Rules &rules) {
    const Kwh baseline = baseline_of(row, rules), tier_2 = row.at_percent(rules.tier_2);
    const Kwh end_1 = std::max(row.metered, tier_2), end_2 = row.metered;
    return {Stretch{std::max(baseline, end_1), end_1}, Stretch{std::max(std::min(baseline, tier_2), end_2), end_2}};
}

std::array<Kwh, 2> held_back(const Row &row, const Rules &rules) {
    const auto [first, second] = stretches_of(row, rules);
    return {first.energy(), second.energy()};
}

std::array<Kwh, 3> bands_of(const Row &row, const Rules &rules) {
    const Kwh first = row.at_percent(rules.band_ends[0]), second = row.at_percent(rules.band_ends[1]);
    return {above(std::min(row.metered, first), baseline_of(row, rules)), above(std::min(row.metered, second), first),
            above(row.metered, second)};
}

Kwh weight_of(const Row &row, const Rules &rules) {
    if (role_of(row, rules) != Role::payer) {
        return {};
    }
    if (!is_thermal(row)) {
        return row.metered;
    }
    const std::array<Kwh, 3> bands = bands_of(row, rules);
    Kwh weight;
    for (std::size_t band = 0; band < bands.size(); ++band) {
        weight += Kwh{rules.factors[band] * bands[band].count};
    }
    return weight;
}

Exactly cap_of(const Row &row, const Rules &rules) {
    if (role_of(row, rules) != Role::payer) {
        return {};
    }
    const Ratio &part = rules.cap_part(row.kind);
    // A hao is a hundredth of a fen.
    return {static_cast<Wide>(row.metered.count) * rules.tariff.count * part.numerator, part.denominator * 100};
}

bool has_delivered(const Row &row, const Rules &rules, const std::array<Kwh, 2> &called, std::size_t tier) {
    return role_of(row, rules) == Role::receiver && called[tier] > Kwh{0} && held_back(row, rules)[tier] > Kwh{0};
}

Due compensation_of(const Row &row, const Rules &rules, const Calls &calls) {
    Due due;
    if (role_of(row, rules) != Role::receiver) {
        return due;
    }
    const std::array<Kwh, 2> energy = held_back(row, rules);
    for (std::size_t tier = 0; tier < 2; ++tier) {
        due.by_tier[tier] = calls.called[tier] > Kwh{0} ? energy[tier].count * calls.prices[tier].count : 0;
    }
    return due;
}

bool is_liable(const Row &row) {
    return is_thermal(row) && row.status == Status::reduced;
}

std::array<Kwh, 2> missing(const Row &row, const Rules &rules, const std::array<Kwh, 2> &called) {
    const std::array<Kwh, 2> delivered = held_back(row, rules);
    return {above(called[0], delivered[0]), above(called[1], delivered[1])};
}

Due penalty_of(const Row &row, const Rules &rules, const Calls &calls) {
    Due due;
    if (!is_liable(row)) {
        return due;
    }
    const std::array<Kwh, 2> short_by = missing(row, rules, calls.called);
    for (std::size_t tier = 0; tier < 2; ++tier) {
        due.by_tier[tier] = rules.penalty * short_by[tier].count * calls.prices[tier].count;
    }
    return due;
}

} // namespace client
