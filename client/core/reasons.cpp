// Why a row's figures are others than before a correction.
#include "explain.h"

#include "average.h"
#include "phrases.h"

#include <algorithm>

namespace client {

namespace {

constexpr std::size_t most_told = 6;

// A row on both sides of the correction.
struct Changed {
    Row before, now;

    bool is_meter() const { return before.metered != now.metered; }
    bool is_status() const { return before.status != now.status; }
    bool is_any() const { return is_meter() || is_status(); }
};

// What the rounds of a statement end with.
struct End {
    Fen total;
    Kwh weights;
    Wide rest = 0; // for those who are below their caps
    Kwh open_weight;
    Fen penalties;

    explicit End(const Statement &statement) : total(statement.total()), rest(total.count) {
        for (const Line &line : statement.lines()) {
            weights += line.weight;
            penalties += line.penalty;
            if (line.closing > 0) {
                rest -= line.cap.count;
            } else {
                open_weight += line.weight;
            }
        }
    }

    bool has_rate() const { return open_weight > Kwh{0} && rest >= 0; }
    std::string fen_each() const { return decimal(rest, open_weight.count, 0, 4); }
    Said rate() const {
        if (has_rate()) {
            return {Word::rate, {fen_each()}};
        }
        return weights > Kwh{0} ? Word::rate_capped : Word::rate_nobody;
    }
};

// Rows of both sides that have one id; a correction neither adds a row nor takes one away.
std::vector<Changed> side_by_side(const Settlement &before, const Settlement &now) {
    std::vector<Changed> rows;
    const std::size_t count = std::min(before.rows.size(), now.rows.size());
    for (std::size_t position = 0; position < count; ++position) {
        if (before.rows[position].id == now.rows[position].id) {
            rows.push_back({before.rows[position], now.rows[position]});
        }
    }
    return rows;
}

void add_change(std::vector<Said> &all, const Changed &row, const Namer &name_of) {
    const Said name = called_within(row.now.id, name_of);
    if (row.is_meter()) {
        all.push_back({Word::meter, {name, text(row.before.metered), text(row.now.metered)}});
    }
    if (row.is_status()) {
        all.push_back({Word::status, {name, Said(status_word(row.before.status)), Said(status_word(row.now.status))}});
    }
}

void add_changes(std::vector<Said> &all, const std::vector<Changed> &others, const Namer &name_of) {
    for (std::size_t place = 0; place < std::min(others.size(), most_told); ++place) {
        add_change(all, others[place], name_of);
    }
    if (others.size() == most_told + 1) {
        all.push_back(Word::change_more_one);
    } else if (others.size() > most_told) {
        all.push_back({Word::change_more, {text(static_cast<std::int64_t>(others.size() - most_told))}});
    }
}

// A figure of both sides, where it is not the same.
template <class Figure>
void add_if_other(std::vector<Said> &all, Word word, Figure before, Figure now) {
    if (before != now) {
        all.push_back({word, {text(before), text(now)}});
    }
}

// What the correction did to the thermal average, by which every unit is paid and pays where it rules.
void add_average(std::vector<Said> &all, const Settlement &before, const Settlement &now) {
    if (const auto change = change_of_average(before.statement, now.statement)) {
        all.push_back(*change);
    }
    const auto was = thermal_average(before.rows), is = thermal_average(now.rows);
    if (before.statement.is_averaged() && now.statement.is_averaged() && was && is) {
        add_if_other(all, Word::change_average, was->energy, is->energy);
    }
}

// A tier in which nobody delivered has no price.
Said price(Li of) {
    return of == Li{0} ? Said(Word::price_none) : Said(Word::price, {text(of)});
}

void add_price(std::vector<Said> &all, Word word, Li before, Li now) {
    if (before != now) {
        all.push_back({word, {price(before), price(now)}});
    }
}

void add_rate(std::vector<Said> &all, const End &before, const End &now) {
    const Said rate_before = before.rate(), rate_now = now.rate();
    const bool is_other = before.rest * now.open_weight.count != now.rest * before.open_weight.count;
    if (rate_before.word != rate_now.word || (now.has_rate() && is_other)) {
        all.push_back({Word::change_rate, {rate_before, rate_now}});
    }
}

// The row's own line on both sides of the correction.
struct Lines {
    Line before, now;

    bool is_below_its_cap() const {
        return before.weight > Kwh{0} && now.weight > Kwh{0} && before.closing == 0 && now.closing == 0;
    }
};

// One neighbour's weight has moved the rate that the row pays, and nothing else has changed: one sentence tells it.
std::optional<Said> neighbour(const Settlement &before, const Settlement &now, const std::vector<Changed> &others,
                              const Lines &own, const Namer &name_of) {
    // Where the thermal average rules, a neighbour's reading may change everybody's weight.
    const bool is_averaged = before.statement.is_averaged() || now.statement.is_averaged();
    if (others.size() != 1 || is_averaged || !own.is_below_its_cap()) {
        return std::nullopt;
    }
    const RowId id = others.front().now.id;
    const auto was = before.statement.of(id), is = now.statement.of(id);
    const End end_was(before.statement), end_is(now.statement);
    if (!was || !is || was->weight == is->weight || !end_was.has_rate() || !end_is.has_rate()) {
        return std::nullopt;
    }
    return Said(Word::neighbour, {called_within(id, name_of), text(was->weight), text(is->weight), end_was.fen_each(),
                                  end_is.fen_each()});
}

// What the others' changes did to a row that was left as it was.
void add_effects(std::vector<Said> &all, const Settlement &before, const Settlement &now,
                 const std::vector<Changed> &others, const Lines &own, const Namer &name_of) {
    const std::optional<Said> by_neighbour = neighbour(before, now, others, own, name_of);
    all.push_back(by_neighbour.value_or(Said(Word::neighbours)));
    const std::size_t told = all.size();
    const End was(before.statement), is(now.statement);
    add_price(all, Word::change_price_1, before.statement.prices()[0], now.statement.prices()[0]);
    add_price(all, Word::change_price_2, before.statement.prices()[1], now.statement.prices()[1]);
    add_if_other(all, Word::change_total, was.total, is.total);
    if (!by_neighbour) {
        add_if_other(all, Word::change_weights, was.weights, is.weights);
        add_rate(all, was, is);
    }
    if ((own.before.closing > 0) != (own.now.closing > 0)) {
        all.push_back(own.now.closing > 0 ? Word::change_closed : Word::change_opened);
    }
    add_if_other(all, Word::change_shortfall, before.statement.shortfall(), now.statement.shortfall());
    add_if_other(all, Word::change_penalties, was.penalties, is.penalties);
    if (!by_neighbour && all.size() == told) {
        all.push_back(Word::change_no_effect);
    }
}

// A net amount in words, which a sign alone would not tell a newcomer.
Said amount_of(Fen net) {
    if (net == Fen{0}) {
        return Word::amount_zero;
    }
    return net > Fen{0} ? Said(Word::amount_gets, {text(net)}) : Said(Word::amount_pays, {text(-net)});
}

} // namespace

std::vector<Said> reasons(const Settlement &before, const Settlement &now, RowId id, const Namer &name_of) {
    const auto line_before = before.statement.of(id), line_now = now.statement.of(id);
    if (!line_before || !line_now) {
        return {{Word::absent, {number(id)}}};
    }
    std::vector<Said> all;
    std::vector<Changed> others;
    bool is_own = false;
    for (const Changed &row : side_by_side(before, now)) {
        if (row.is_any() && row.now.id == id) {
            is_own = true;
            add_change(all, row, name_of);
        } else if (row.is_any()) {
            others.push_back(row);
        }
    }
    add_changes(all, others, name_of);
    add_average(all, before, now);
    if (all.empty()) {
        all.push_back(Word::change_nothing);
    } else if (!is_own) {
        add_effects(all, before, now, others, {*line_before, *line_now}, name_of);
    }
    const Fen net_before = line_before->net(), net_now = line_now->net();
    all.push_back(net_before == net_now ? Said(Word::void_same, {amount_of(net_now)})
                                        : Said(Word::void_changed, {amount_of(net_before), amount_of(net_now)}));
    return all;
}

} // namespace client
