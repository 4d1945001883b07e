// The thermal average of a quarter: which rows it is made of, and when it rules (Article 22).
#pragma once

#include "rules.h"

#include <vector>

namespace client {

// Of all thermal units, whatever their status; none where there is none.
std::optional<Average> thermal_average(const std::vector<Row> &rows);

// The same where it rules in the baseline's place: regulation is needed, no wind or solar farm produced anything, and
// no thermal unit ran above its baseline. Rows of any status count.
std::optional<Average> ruling_average(const std::vector<Row> &rows, const Rules &rules);

} // namespace client
