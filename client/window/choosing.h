// What is shown of a reading where nobody has chosen, and what comes next to what is chosen.
#pragma once

#include "shown.h"

namespace client {

// What was chosen stays chosen: a day whose files are gone is shown as empty, and not another one in its place. What
// was not is the day to show first, its first plant, and the plant's dearest quarter.
void settle_choices(Shown &shown);

// The day of the reading before the one that is shown (-1) or after it (1); none where there is none.
std::optional<Day> day_beside(const Shown &shown, int by);

} // namespace client
