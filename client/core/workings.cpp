#include "workings.h"

#include "average.h"
#include "balance.h"

#include <algorithm>
#include <optional>

namespace client {

namespace {

using Failed = std::optional<Said>;

// The form of the statement that the engine makes of an interval file.
const FileForm &made_of(const FileForm &interval) {
    return interval == pg_form ? pt_form : ps_form;
}

bool has_whole_lines(const Statement &statement) {
    // The header's readers go by the mark, and take any but PT for PS.
    const FileForm &form = states_terms(statement.bytes()) ? pt_form : ps_form;
    const std::size_t length = statement.bytes().size();
    return length >= form.head && length == form.length(statement.rows());
}

// The stages of a quarter, each of which works something out and checks it. Of the statement only calls and prices are
// taken over; every other figure of it is only compared, so that no stage depends on a figure that may be wrong.
class Work {
  public:
    Work(const Statement &statement, const std::vector<Row> &rows, const Rules &rules) : statement_(statement) {
        is_.rows = rows;
        is_.rules = rules;
    }

    std::variant<Workings, Said> done() {
        using Stage = Failed (Work::*)();
        for (const Stage stage : {&Work::read, &Work::average, &Work::add_up, &Work::weigh, &Work::price, &Work::earn,
                                  &Work::owe, &Work::close, &Work::pay, &Work::cover}) {
            if (Failed failed = (this->*stage)()) {
                return *failed;
            }
        }
        return std::move(is_);
    }

  private:
    Failed read();
    Failed average();
    Failed add_up();
    Failed weigh();
    Failed price();
    Failed earn();
    Failed owe();
    Failed close();
    Failed pay();
    Failed cover();

    std::size_t count() const { return is_.rows.size(); }
    RowId id(std::size_t position) const { return is_.lines[position].id; }
    Said of_row(Word check, std::size_t position) const { return {check, {std::to_string(id(position).number)}}; }
    void close_round(std::vector<std::size_t> &open);
    std::vector<Fen> by_row(const Sharing &sharing) const;
    Sharing shared_over(Fen Line::*something, Fen amount) const;
    // Whether every row's field is what is due.
    Failed same(Word check, Fen Line::*field, const std::vector<Fen> &due) const;

    const Statement &statement_;
    Workings is_;
    std::vector<unsigned> closing_; // the round in which each row reached its cap, 0 if it did not
    std::vector<std::size_t> open_; // positions of those who have a weight and are below their caps
};

Failed Work::read() {
    if (!has_whole_lines(statement_)) {
        return Word::check_length;
    }
    if (form_of(statement_.bytes()) != made_of(is_.rules.form) || terms_of(statement_) != is_.rules.terms) {
        return Word::check_terms;
    }
    is_.lines = statement_.lines();
    is_.prices = statement_.prices();
    is_.turns = Turns(statement_.slot().quarter, count());
    const bool fits =
        std::equal(is_.lines.begin(), is_.lines.end(), is_.rows.begin(), is_.rows.end(),
                   [](const Line &line, const Row &row) { return line.id == row.id && row.capacity > 0; });
    return fits ? Failed() : Word::check_rows;
}

// From here on the rules are those of this quarter: its rows decide whether the thermal average rules.
Failed Work::average() {
    is_.rules.average = ruling_average(is_.rows, is_.rules);
    return statement_.averaged() == (is_.rules.average ? 1u : 0u) ? Failed() : Word::check_averaged;
}

// The statement's own sums, before anything is worked out.
Failed Work::add_up() {
    const auto failed = imbalance(statement_);
    return failed ? Failed(*failed) : Failed();
}

Failed Work::weigh() {
    for (std::size_t position = 0; position < count(); ++position) {
        const Kwh weight = weight_of(is_.rows[position], is_.rules);
        if (is_.lines[position].weight != weight) {
            return of_row(Word::check_weight, position);
        }
        if (is_.lines[position].cap != cap_of(is_.rows[position], is_.rules).cut()) {
            return of_row(Word::check_cap, position);
        }
        if (weight > Kwh{0}) {
            open_.push_back(position);
            is_.weight += weight;
        }
    }
    return {};
}

// A tier's price is a bid, so it is above 0, of one of those who delivered; without them there is none (Article 27).
Failed Work::price() {
    constexpr std::array checks{Word::check_price_1, Word::check_price_2};
    for (std::size_t tier = 0; tier < checks.size(); ++tier) {
        bool has_price = false;
        for (std::size_t position = 0; position < count(); ++position) {
            has_price |= has_delivered(is_.rows[position], is_.rules, is_.lines[position].called, tier);
        }
        if (has_price != (is_.prices[tier] > Li{0})) {
            return checks[tier];
        }
    }
    return {};
}

Failed Work::earn() {
    for (std::size_t position = 0; position < count(); ++position) {
        const Line &line = is_.lines[position];
        if (line.compensation != compensation_of(is_.rows[position], is_.rules, {line.called, is_.prices}).rounded()) {
            return of_row(Word::check_compensation, position);
        }
        is_.total += line.compensation;
    }
    return {};
}

Failed Work::owe() {
    for (std::size_t position = 0; position < count(); ++position) {
        const Line &line = is_.lines[position];
        if (line.penalty != penalty_of(is_.rows[position], is_.rules, {line.called, is_.prices}).rounded()) {
            return of_row(Word::check_penalty, position);
        }
        is_.penalties += line.penalty;
    }
    return {};
}

// One round: all who reach their caps at its rate are taken out of `open`; none where nobody does.
void Work::close_round(std::vector<std::size_t> &open) {
    Round round{.rest = is_.rest, .weight = is_.open_weight, .closed = {}, .caps = {}, .left = {}, .left_weight = {}};
    std::vector<std::size_t> still_open;
    for (const std::size_t position : open) {
        const Line &line = is_.lines[position];
        const bool reaches = static_cast<Wide>(round.rest.count) * line.weight.count >=
                             static_cast<Wide>(line.cap.count) * round.weight.count;
        (reaches ? round.closed : still_open).push_back(position);
    }
    for (const std::size_t position : round.closed) {
        round.caps += is_.lines[position].cap;
        is_.open_weight -= is_.lines[position].weight;
        closing_[position] = static_cast<unsigned>(is_.rounds.size()) + 1;
    }
    is_.rest -= round.caps;
    open = still_open;
    if (!round.closed.empty()) {
        round.left = is_.rest;
        round.left_weight = is_.open_weight;
        is_.rounds.push_back(round);
    }
}

Failed Work::close() {
    closing_.assign(count(), 0);
    is_.rest = is_.total;
    is_.open_weight = is_.weight;
    std::size_t visits = 0;
    for (bool somebody_closed = true; somebody_closed;) {
        const std::size_t were_open = open_.size();
        visits += were_open;
        close_round(open_);
        somebody_closed = open_.size() < were_open;
    }
    for (std::size_t position = 0; position < count(); ++position) {
        if (is_.lines[position].closing != closing_[position]) {
            return of_row(Word::check_closing, position);
        }
    }
    if (statement_.rounds() != is_.rounds.size()) {
        return Word::check_rounds;
    }
    return statement_.visits() == visits ? Failed() : Word::check_visits;
}

// The shares by row, 0 for who takes no part.
std::vector<Fen> Work::by_row(const Sharing &sharing) const {
    std::vector<Fen> due(count());
    for (const Part &part : sharing.parts) {
        due[part.position] = {part.share()};
    }
    return due;
}

Failed Work::same(Word check, Fen Line::*field, const std::vector<Fen> &due) const {
    for (std::size_t position = 0; position < count(); ++position) {
        if (is_.lines[position].*field != due[position]) {
            return of_row(check, position);
        }
    }
    return {};
}

Failed Work::pay() {
    std::vector<Sharer> sharers;
    for (const std::size_t position : open_) {
        sharers.push_back({position, is_.lines[position].weight.count});
    }
    is_.payments = share(is_.rest.count, sharers, is_.turns);
    std::vector<Fen> due = by_row(is_.payments);
    for (const Round &round : is_.rounds) {
        for (const std::size_t position : round.closed) {
            due[position] = is_.lines[position].cap;
        }
    }
    return same(Word::check_paid, &Line::paid, due);
}

// An amount shared over what each row has of something.
Sharing Work::shared_over(Fen Line::*something, Fen amount) const {
    std::vector<Sharer> sharers;
    for (std::size_t position = 0; position < count(); ++position) {
        if (const Fen money = is_.lines[position].*something; money > Fen{0}) {
            sharers.push_back({position, money.count});
        }
    }
    return share(amount.count, sharers, is_.turns);
}

// Penalties fill the shortfall first; receivers bear what they leave open, and what they have over goes back. That the
// statement has this shortfall follows from its payments, which are right, and from its sums.
Failed Work::cover() {
    is_.shortfall = open_.empty() ? is_.rest : Fen{0};
    is_.filled = std::min(is_.shortfall, is_.penalties);
    is_.cuts = shared_over(&Line::compensation, is_.shortfall - is_.filled);
    is_.returns = shared_over(&Line::penalty, is_.penalties - is_.filled);
    if (Failed failed = same(Word::check_cut, &Line::cut, by_row(is_.cuts))) {
        return failed;
    }
    return same(Word::check_returned, &Line::returned, by_row(is_.returns));
}

} // namespace

std::variant<Workings, Said> work_out(const Statement &statement, const std::vector<Row> &rows, const Rules &rules) {
    return Work(statement, rows, rules).done();
}

} // namespace client
