// The fields of a line, told once: how each is called, measured and added up. Columns, sums, lists and exports follow
// from this table.
#pragma once

#include "engine.h"
#include "words.h"

#include <array>
#include <cstdint>
#include <string>

namespace client {

enum class Figure { called_1, called_2, earned, cut, weight, cap, paid, closing, penalty, returned, net };

enum class Unit { energy, money, round };

struct Field {
    Figure figure;
    std::int64_t (*of)(const Line &line);
    Unit unit;
    bool has_sum;   // what it comes to over a day means something
    Word name;      // short, as the head of a narrow column
    Word long_name; // where there is room
    Word csv;       // as a column of a file, without its unit
};

inline constexpr std::size_t field_count = 11;
// In the order in which they are shown.
const std::array<Field, field_count> &fields();
const Field &field(Figure figure);

// The figure as it is read. A round that never came is no figure: the text is empty.
std::string text_of(const Field &field, std::int64_t count);
// What it went up or down by.
std::string change_of(const Field &field, std::int64_t before, std::int64_t now);

Word unit_of(const Field &field);
// "Called in tier 1, kWh".
Said long_name(const Field &field);

// What some lines come to, field by field.
class Sums {
  public:
    void add(const Line &line);
    std::int64_t count(Figure figure) const { return counts_[static_cast<std::size_t>(figure)]; }
    // Of a field that is money.
    Fen money(Figure figure) const { return {count(figure)}; }

  private:
    std::array<std::int64_t, field_count> counts_{};
};

} // namespace client
