// What the rules make of one row by itself: its part in the quarter, what it weighs, the most it pays, what it is paid
// for and what it owes. Articles are those of source document 001.
#pragma once

#include "rules.h"

#include <array>
#include <string>

namespace client {

enum class Role {
    payer,     // it shares in the cost, perhaps with a weight of 0
    receiver,  // it is paid where it was called
    bystander, // neither: its status keeps it out (Article 24)
};

// A thermal unit's load in percent, with so many decimal places at least and at most: "79.99…". Empty for wind and
// solar, which have none that the rules ask for.
std::string load_of(const Row &row, unsigned least, unsigned most);

// The energy below which a thermal unit is paid, and from which upward it pays: its baseline, or its part of the
// thermal average where that rules.
Kwh baseline_of(const Row &row, const Rules &rules);

Role role_of(const Row &row, const Rules &rules);

// From a higher energy down to a lower one, or to the same.
struct Stretch {
    Kwh from, to;

    Kwh energy() const { return from - to; }
};

// What it held back in each tier, by the meter: below the baseline down to where tier 2 begins, and below that
// (Article 27).
std::array<Stretch, 2> stretches_of(const Row &row, const Rules &rules);
std::array<Kwh, 2> held_back(const Row &row, const Rules &rules);

// A thermal unit's energy above the baseline, by the bands of the rules (Article 29).
std::array<Kwh, 3> bands_of(const Row &row, const Rules &rules);

// 0 for who is no payer.
Kwh weight_of(const Row &row, const Rules &rules);

// An amount of fen before it is cut to whole ones.
struct Exactly {
    Wide numerator = 0;
    Wide denominator = 1; // above 0

    Fen cut() const { return {static_cast<std::int64_t>(numerator / denominator)}; }
    bool is_whole() const { return numerator % denominator == 0; }
};

// A payer's cap: the tariff's part for what it produced (Article 30); 0 for who is no payer.
Exactly cap_of(const Row &row, const Rules &rules);

// Money in li, before it is brought to fen.
struct Due {
    std::array<std::int64_t, 2> by_tier{};

    std::int64_t together() const { return by_tier[0] + by_tier[1]; }
    // Half a fen goes upward.
    Fen rounded() const { return {(together() + 5) / 10}; }
};

// What the statement says of a row's calls and of their prices, by tier.
struct Calls {
    std::array<Kwh, 2> called;
    std::array<Li, 2> prices;
};

// Whether it is among those who set the price of a tier: it can be paid, was called there and held something back.
bool has_delivered(const Row &row, const Rules &rules, const std::array<Kwh, 2> &called, std::size_t tier);

// What a receiver has earned in the tiers in which it was called (Article 28).
Due compensation_of(const Row &row, const Rules &rules, const Calls &calls);

// Who owes a penalty for what it was called for and did not hold back (Article 52).
bool is_liable(const Row &row);
// What is missing in each tier: more than was called in one does not make up for less in the other.
std::array<Kwh, 2> missing(const Row &row, const Rules &rules, const std::array<Kwh, 2> &called);
Due penalty_of(const Row &row, const Rules &rules, const Calls &calls);

} // namespace client
