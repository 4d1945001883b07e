// What rows, their kinds and their statuses are called; terms, and whether the thermal average rules, in words.
#pragma once

#include "engine.h"
#include "words.h"

#include <functional>
#include <optional>
#include <string>

namespace client {

Word kind_word(Kind kind);
Word status_word(Status status);

// "baseline 45 percent of full load; bids from 0.150 to 0.300 yuan for each kWh in tier 1, ..."
Said in_words(const Terms &terms);

// That the thermal average rules now and did not before, or the reverse; nothing where both are alike.
std::optional<Said> change_of_average(const Statement &before, const Statement &now);

// A row's name in a tongue, empty where it has none; and nobody has one where there is no function.
using Namer = std::function<std::string(RowId, Tongue)>;

bool has_name(RowId id, const Namer &name_of);
// What a row is called: its name with its id, "North Wind (row 753)". Without a name it is "Row 753" where a sentence
// begins, and "row 753" within one.
Said called(RowId id, const Namer &name_of);
Said called_within(RowId id, const Namer &name_of);

} // namespace client
