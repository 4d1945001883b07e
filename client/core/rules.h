// The rules by which a quarter is settled, as the head of its interval file states them. The numbers of the rules stand
// here and nowhere else: who works a figure out, or tells it, takes them from here. Articles are those of source
// document 001.
#pragma once

#include "engine.h"

#include <array>
#include <optional>

namespace client {

struct Ratio {
    int numerator = 0;
    int denominator = 1; // above 0

    friend bool operator==(const Ratio &, const Ratio &) = default;
};

// The terms of a head that states none: the rules as they were issued (Articles 19 and 25).
inline constexpr Terms issued_terms{50, {Li{100}, Li{320}, Li{320}, Li{750}}};

// Whether a head may state these: what check 14 asks for.
bool are_allowed(const Terms &terms);

// What all thermal units of a quarter produced, and their capacity in MW, which is above 0. Where the average rules, a
// unit's part of it takes its baseline's place (Article 22).
struct Average {
    Kwh energy;
    std::int64_t capacity = 0;

    friend bool operator==(const Average &, const Average &) = default;
    // A unit's part by its capacity, cut to whole kWh.
    Kwh of(const Row &row) const { return {row.capacity * energy.count / capacity}; }
};

struct Rules {
    FileForm form; // of the interval file
    Hao tariff;
    Kwh need;
    // A thermal unit is paid below the baseline, and pays from it upward (Articles 19 and 21). The limits say what may
    // be bid: the engine holds bids to them, and nothing is worked out from them here.
    Terms terms;
    // Where it rules in the baseline's place. It follows from the rows (average.h): the rules of a head have none.
    std::optional<Average> average;
    // In percent of full load, from here to the bands.
    int tier_2 = 0; // where tier 1 ends and tier 2 begins (Article 25)
    // A thermal unit's energy from the baseline to the first end, from there to the second, and above it; and how often
    // each of these counts (Article 29).
    std::array<int, 2> band_ends{};
    std::array<int, 3> factors{};
    // What part of the tariff a payer's cap is, for each kWh that it produced (Article 30).
    Ratio thermal_cap, renewable_cap;
    // What a kWh costs that was called and is missing, in clearing prices (Article 52).
    int penalty = 0;

    friend bool operator==(const Rules &, const Rules &) = default;
    const Ratio &cap_part(Kind kind) const { return kind == Kind::thermal ? thermal_cap : renewable_cap; }
};

Rules rules_of(View accepted_interval);

// The terms under which a statement was made.
Terms terms_of(const Statement &statement);

} // namespace client
