// Phrases that several sentences have in common.
#pragma once

#include "duties.h"
#include "named.h"
#include "words.h"

#include <vector>

namespace client {

Word tier_word(std::size_t tier); // 0 for tier 1
std::string number(RowId id);

// What a row is paid below and pays from: its baseline, "50 percent (12,500 kWh)", or its part of the thermal average
// where that rules, "10,800 kWh".
Said baseline(const Row &row, const Rules &rules);
// Fen for each kWh; the weight is above 0.
std::string rate(Fen money, Kwh weight);
// amount × weight ÷ weights, in yuan; the weights are above 0.
std::string part_of(Fen amount, std::int64_t weight, std::int64_t weights);
// Money in li, shown in yuan.
std::string in_yuan(std::int64_t li);

// A row's part of the thermal average and, where it is no whole number of kWh, what it is cut to.
Said cut_to_kwh(const Average &average, const Row &row);
// An exact amount and, where it is no whole number of fen, what it is cut to.
Said cut_to_fen(const Exactly &fen);
// A sum of li and, where it is no whole number of fen, what it is rounded to.
Said rounded_to_fen(const Due &due);
// Rows, of which there is at least one, within a sentence: by their names where they are few and one has a name, else
// by their ids, "rows 3, 7 and 45 more".
Said listed(const std::vector<RowId> &ids, const Namer &name_of);

} // namespace client
