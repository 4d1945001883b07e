#include "fields.h"

namespace client {

const std::array<Field, field_count> &fields() {
    static constexpr std::array<Field, field_count> all{{
        {Figure::called_1, [](const Line &line) { return line.called[0].count; }, Unit::energy, true,
         Word::figure_called_1, Word::figure_called_1_long, Word::csv_called1},
        {Figure::called_2, [](const Line &line) { return line.called[1].count; }, Unit::energy, true,
         Word::figure_called_2, Word::figure_called_2_long, Word::csv_called2},
        {Figure::earned, [](const Line &line) { return line.compensation.count; }, Unit::money, true,
         Word::figure_earned, Word::figure_earned, Word::csv_compensation},
        {Figure::cut, [](const Line &line) { return line.cut.count; }, Unit::money, true, Word::figure_cut,
         Word::figure_cut, Word::csv_cut},
        {Figure::weight, [](const Line &line) { return line.weight.count; }, Unit::energy, false, Word::figure_weight,
         Word::figure_weight, Word::csv_weight},
        {Figure::cap, [](const Line &line) { return line.cap.count; }, Unit::money, false, Word::figure_cap,
         Word::figure_cap, Word::csv_cap},
        {Figure::paid, [](const Line &line) { return line.paid.count; }, Unit::money, true, Word::figure_paid,
         Word::figure_paid, Word::csv_paid},
        {Figure::closing, [](const Line &line) { return std::int64_t{line.closing}; }, Unit::round, false,
         Word::figure_closing, Word::figure_closing_long, Word::csv_closing},
        {Figure::penalty, [](const Line &line) { return line.penalty.count; }, Unit::money, true, Word::figure_penalty,
         Word::figure_penalty, Word::csv_penalty},
        {Figure::returned, [](const Line &line) { return line.returned.count; }, Unit::money, true,
         Word::figure_returned, Word::figure_returned, Word::csv_returned},
        {Figure::net, [](const Line &line) { return line.net().count; }, Unit::money, true, Word::figure_net,
         Word::figure_net, Word::csv_net},
    }};
    return all;
}

const Field &field(Figure figure) {
    return fields()[static_cast<std::size_t>(figure)];
}

std::string text_of(const Field &field, std::int64_t count) {
    switch (field.unit) {
    case Unit::energy:
        return text(Kwh{count});
    case Unit::money:
        return text(Fen{count});
    case Unit::round:
        break;
    }
    return count == 0 ? std::string() : text(count);
}

std::string change_of(const Field &field, std::int64_t before, std::int64_t now) {
    const std::int64_t by = now - before;
    return field.unit == Unit::money ? change(Fen{by}) : change(Kwh{by});
}

Word unit_of(const Field &field) {
    constexpr std::array units{Word::unit_kwh, Word::unit_yuan, Word::unit_round};
    return units[static_cast<std::size_t>(field.unit)];
}

Said long_name(const Field &field) {
    if (field.unit == Unit::round) {
        return field.long_name;
    }
    return {Word::unit_of, {Said(field.long_name), Said(unit_of(field))}};
}

void Sums::add(const Line &line) {
    for (const Field &each : fields()) {
        counts_[static_cast<std::size_t>(each.figure)] += each.of(line);
    }
}

} // namespace client
