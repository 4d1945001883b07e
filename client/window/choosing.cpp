#include "choosing.h"

#include "view.h"

#include <iterator>

namespace client {

void settle_choices(Shown &shown) {
    const Reading &reading = *shown.reading;
    if (!shown.day) {
        shown.day = reading.first_day();
    }
    if (!shown.day) {
        return;
    }
    if (!shown.plant) {
        const auto plants = plants_of(reading, *shown.day);
        shown.plant = plants.empty() ? std::nullopt : std::optional(plants.front().id);
    }
    if (!shown.quarter && shown.plant) {
        shown.quarter = dearest(plant_day(shown.reading, *shown.day, *shown.plant)).value_or(Quarter{0});
    }
}

std::optional<Day> day_beside(const Shown &shown, int by) {
    if (!shown.reading || !shown.day) {
        return std::nullopt;
    }
    const auto &days = shown.reading->days;
    const auto here = days.lower_bound(*shown.day), next = days.upper_bound(*shown.day);
    if (by < 0) {
        return here == days.begin() ? std::nullopt : std::optional(std::prev(here)->first);
    }
    return next == days.end() ? std::nullopt : std::optional(next->first);
}

} // namespace client
