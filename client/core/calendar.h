// Days and quarter hours, and their names.
#pragma once

#include <compare>
#include <cstdint>
#include <optional>
#include <string>
#include <string_view>

namespace client {

inline constexpr unsigned quarters_of_day = 96;

// A day, counted from 2000-01-01. Day 0 is a day like any other: "no day" is an empty std::optional.
struct Day {
    std::uint32_t number = 0;
    friend constexpr auto operator<=>(Day, Day) = default;
};

// A quarter hour of a day, 0 to 95.
struct Quarter {
    std::uint8_t number = 0;
    friend constexpr auto operator<=>(Quarter, Quarter) = default;
};

// One quarter hour of the calendar.
struct Slot {
    Day day;
    Quarter quarter;
    friend constexpr auto operator<=>(Slot, Slot) = default;
};

// The slot of two numbers, where both are within the files' ranges.
std::optional<Slot> slot_of(std::uint32_t day, std::uint8_t quarter);

// The day of a date as `date` writes it, where there is such a day and the files can name it.
std::optional<Day> day_of(std::string_view date);

// "2026-10-31".
std::string date(Day day);
// "02:15–02:30"; the last quarter of a day ends at 24:00.
std::string span(Quarter quarter);
// "02:15".
std::string start(Quarter quarter);
// "2026-10-31 02:15–02:30".
std::string text(Slot slot);

} // namespace client
