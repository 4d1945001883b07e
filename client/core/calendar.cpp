#include "calendar.h"

#include <algorithm>
#include <chrono>

namespace client {

namespace {

constexpr std::uint32_t last_day = 36'524;
constexpr std::chrono::sys_days day_0{std::chrono::year{2000} / std::chrono::January / 1};

std::string two(unsigned number) {
    return {static_cast<char>('0' + number / 10 % 10), static_cast<char>('0' + number % 10)};
}

std::string clock(unsigned quarters) {
    return two(quarters / 4) + ":" + two(quarters % 4 * 15);
}

} // namespace

std::optional<Slot> slot_of(std::uint32_t day, std::uint8_t quarter) {
    if (day > last_day || quarter >= quarters_of_day) {
        return std::nullopt;
    }
    return Slot{{day}, {quarter}};
}

std::optional<Day> day_of(std::string_view date) {
    using namespace std::chrono;
    constexpr std::string_view form = "0000-00-00";
    const bool has_form = std::equal(date.begin(), date.end(), form.begin(), form.end(), [](char letter, char due) {
        return due == '0' ? letter >= '0' && letter <= '9' : letter == due;
    });
    if (!has_form) {
        return std::nullopt;
    }
    const auto number = [&](std::size_t at, std::size_t length) {
        unsigned sum = 0;
        for (const char digit : date.substr(at, length)) {
            sum = 10 * sum + static_cast<unsigned>(digit - '0');
        }
        return sum;
    };
    const year_month_day named{year{static_cast<int>(number(0, 4))}, month{number(5, 2)}, day{number(8, 2)}};
    const auto since_day_0 = named.ok() ? (sys_days{named} - day_0).count() : -1;
    return since_day_0 >= 0 && since_day_0 <= last_day ? std::optional(Day{static_cast<std::uint32_t>(since_day_0)})
                                                       : std::nullopt;
}

std::string date(Day day) {
    using namespace std::chrono;
    const year_month_day found{day_0 + days{day.number}};
    return std::to_string(static_cast<int>(found.year())) + "-" + two(static_cast<unsigned>(found.month())) + "-" +
           two(static_cast<unsigned>(found.day()));
}

std::string start(Quarter quarter) {
    return clock(quarter.number);
}

std::string span(Quarter quarter) {
    return clock(quarter.number) + "–" + clock(quarter.number + 1u);
}

std::string text(Slot slot) {
    return date(slot.day) + " " + span(slot.quarter);
}

} // namespace client
