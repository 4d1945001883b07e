// Statements drawn at random, explained; and copies of them with one figure moved, which have to be noticed.
//
//     pairs SEED COUNT | drawn_test
//
// Standard input has pairs of files: an interval file of either form and its correction, each behind its length in four
// bytes. A pair that states no terms is explained once more with the terms as issued stated: alike, word for word.
#include "average.h"
#include "check.h"
#include "duties.h"
#include "explain.h"
#include "made.h"

#include "wheatrudder.h"

#include <algorithm>
#include <map>
#include <random>

using namespace client;

namespace {

// A file behind its length; none at the end of the input.
std::optional<Bytes> next_file(std::istream &in) {
    std::array<char, 4> length{};
    if (!in.read(length.data(), length.size())) {
        check::holds(in.gcount() == 0, "the input ends within a length");
        return std::nullopt;
    }
    const std::uint32_t count = wheatrudder_u32(reinterpret_cast<const std::uint8_t *>(length.data()));
    check::holds(count < 1u << 20, "a file is longer than any form");
    Bytes bytes(count);
    in.read(reinterpret_cast<char *>(bytes.data()), count);
    check::holds(in.gcount() == static_cast<std::streamsize>(count), "the input ends within a file");
    return bytes;
}

struct Quarter {
    Statement statement;
    std::vector<Row> rows;
    Rules rules;

    std::variant<Explanation, Disagreement> explained(RowId id) const { return explain(statement, rows, rules, id); }
};

std::optional<Quarter> settled(const Bytes &interval, const Bytes &correction) {
    const auto answer = settle(interval, correction);
    if (!std::holds_alternative<Statement>(answer)) {
        return std::nullopt;
    }
    const Statement &statement = std::get<Statement>(answer);
    return Quarter{statement, counting_rows(interval, correction, statement), rules_of(interval)};
}

struct Tally {
    std::size_t refused = 0, statements = 0, stated = 0, rows = 0, steps = 0, reasons = 0, alike = 0, most_rounds = 0;
    // Quarters that the thermal average rules, of these with stated terms; and such as it rules only before, or only
    // after their corrections.
    std::size_t averaged = 0, averaged_and_stated = 0, turned = 0;
    // Rows between the stated baseline and that of the rules as issued: they pay, and would be paid there.
    std::size_t between = 0;
    // Rows between the thermal average that rules and their baselines: they pay, and would not by their baselines.
    std::size_t above_average = 0;
    std::map<std::string, std::size_t> moved; // and noticed
};

void check_sentence(const Said &said) {
    for (const Tongue tongue : {Tongue::english, Tongue::chinese}) {
        const std::string text = said.in(tongue);
        check::holds(!text.empty() && text.find('{') == std::string::npos, "an open hole: " + text);
    }
}

void check_row(const Quarter &quarter, const Line &line, Tally &tally) {
    const auto answer = quarter.explained(line.id);
    if (const auto *disagreement = std::get_if<Disagreement>(&answer)) {
        check::holds(false, disagreement->check.in(Tongue::english));
    }
    const Explanation &explanation = std::get<Explanation>(answer);
    check_sentence(explanation.answer);
    for (const Step &step : explanation.steps) {
        check_sentence(step.words);
        check::equal(step.is_result, &step == &explanation.steps.back(), "whether a step is the result");
    }
    const Step &result = explanation.steps.back();
    const Fen net = line.net();
    check::equal(result.yuan.value_or("none"), text(net < Fen{0} ? -net : net), "the result's amount");
    ++tally.rows;
    tally.steps += explanation.steps.size();
}

// All rows of a small quarter; else the first, the last, and the first of every part that a row can have.
std::vector<std::size_t> to_explain(const Quarter &quarter) {
    const std::vector<Line> lines = quarter.statement.lines();
    std::map<std::vector<int>, std::size_t> first_of;
    std::vector<std::size_t> positions;
    for (std::size_t position = 0; position < lines.size(); ++position) {
        const Line &line = lines[position];
        const Row &row = quarter.rows[position];
        const std::vector<int> part{static_cast<int>(row.kind), static_cast<int>(row.status),
                                    line.weight > Kwh{0},       std::min<int>(static_cast<int>(line.closing), 3),
                                    line.compensation > Fen{0}, line.cut > Fen{0},
                                    line.penalty > Fen{0},      line.returned > Fen{0},
                                    line.called[0] > Kwh{0},    line.called[1] > Kwh{0}};
        const bool is_first_of_its_part = first_of.emplace(part, position).second;
        if (lines.size() <= 12 || position == 0 || position + 1 == lines.size() || is_first_of_its_part) {
            positions.push_back(position);
        }
    }
    return positions;
}

void check_reasons(const Quarter &before, const Quarter &now, RowId id, Tally &tally) {
    const auto all = reasons({before.statement, before.rows}, {now.statement, now.rows}, id);
    check::holds(all.size() >= 2, "a reason and what follows from it");
    for (const Said &reason : all) {
        check_sentence(reason);
    }
    const bool is_same = before.statement.of(id)->net() == now.statement.of(id)->net();
    check::holds(all.back().word == (is_same ? Word::void_same : Word::void_changed), "what is to be booked");
    tally.reasons += all.size();
}

// A copy of a statement in which figures are moved, and what has to be noticed.
class Moving {
  public:
    Moving(const Quarter &quarter, std::mt19937 &random, Tally &tally)
        : quarter_(quarter), lines_(quarter.statement.lines()), random_(random), tally_(tally) {}

    // Without lines there is nobody to explain anything to.
    void all() {
        if (lines_.empty()) {
            return;
        }
        in_head("total", WHEATRUDDER_HEAD_TOTAL, 8);
        in_head("shortfall", WHEATRUDDER_HEAD_SHORTFALL, 8);
        in_head("rounds", WHEATRUDDER_HEAD_ROUNDS, 2);
        in_head("rows", WHEATRUDDER_HEAD_ROWS, 2);
        no_price("price of tier 1", WHEATRUDDER_HEAD_PRICE1, 0);
        no_price("price of tier 2", WHEATRUDDER_HEAD_PRICE2, 1);
        if (states_terms(quarter_.statement.bytes())) {
            in_head("visits, with stated terms", WHEATRUDDER_HEAD_VISITS_PT, 4);
            in_head("averaged, with stated terms", WHEATRUDDER_HEAD_AVERAGED_PT, 1);
            in_head("baseline", WHEATRUDDER_HEAD_PERCENT_PT, 1);
            in_head("a limit of bids", WHEATRUDDER_HEAD_LIMITS_PT + 2 * below(4), 2);
        } else {
            in_head("visits", WHEATRUDDER_HEAD_VISITS_PS, 4);
            in_head("averaged", WHEATRUDDER_HEAD_AVERAGED_PS, 1);
        }
        in_line("id", WHEATRUDDER_LINE_ID, 2);
        in_line("compensation", WHEATRUDDER_LINE_COMPENSATION, 4);
        in_line("cut", WHEATRUDDER_LINE_CUT, 4);
        in_line("weight", WHEATRUDDER_LINE_WEIGHT, 4);
        in_line("cap", WHEATRUDDER_LINE_CAP, 4);
        in_line("paid", WHEATRUDDER_LINE_PAID, 4);
        in_line("closing", WHEATRUDDER_LINE_CLOSING, 2);
        in_line("penalty", WHEATRUDDER_LINE_PENALTY, 4);
        in_line("returned", WHEATRUDDER_LINE_RETURNED, 4);
        between("paid, between two payers", WHEATRUDDER_LINE_PAID, &Line::paid,
                [](const Line &line) { return line.weight > Kwh{0}; });
        const auto is_receiver = [](const Line &line) { return line.compensation > Fen{0}; };
        between("compensation, between two", WHEATRUDDER_LINE_COMPENSATION, &Line::compensation, is_receiver);
        between("cut, between two", WHEATRUDDER_LINE_CUT, &Line::cut, is_receiver);
        const auto is_liable = [](const Line &line) { return line.penalty > Fen{0}; };
        between("penalty, between two", WHEATRUDDER_LINE_PENALTY, &Line::penalty, is_liable);
        between("returned, between two", WHEATRUDDER_LINE_RETURNED, &Line::returned, is_liable);
    }

  private:
    std::size_t below(std::size_t count) { return random_() % count; }

    std::size_t place(std::size_t position, std::size_t field) const {
        return form_of(quarter_.statement.bytes())->length(position) + field;
    }

    // Adds to a little-endian number, round its end where it passes it.
    static void add(Bytes &bytes, std::size_t at, unsigned length, std::uint64_t more) {
        std::uint64_t sum = more;
        for (unsigned place = 0; place < length; ++place) {
            sum += std::uint64_t{bytes[at + place]} << (8 * place);
        }
        for (unsigned place = 0; place < length; ++place) {
            bytes[at + place] = static_cast<std::uint8_t>(sum >> (8 * place));
        }
    }

    Bytes copy() const { return {quarter_.statement.bytes().begin(), quarter_.statement.bytes().end()}; }

    void demand_notice(const std::string &kind, const Bytes &bytes) {
        const Quarter moved{Statement(bytes), quarter_.rows, quarter_.rules};
        const auto answer = moved.explained(lines_[below(lines_.size())].id);
        check::holds(std::holds_alternative<Disagreement>(answer), "not noticed: " + kind);
        check_sentence(std::get<Disagreement>(answer).check);
        ++tally_.moved[kind];
    }

    // By one up, by one down, or to any other number.
    std::uint64_t step() {
        const std::uint64_t any = std::uint64_t{random_()} << 32 | random_();
        switch (below(4)) {
        case 0:
            return 1;
        case 1:
            return ~std::uint64_t{0};
        default:
            return any | 1; // odd, so that some bit of every length changes
        }
    }

    void in_head(const std::string &kind, std::size_t field, unsigned length) {
        Bytes bytes = copy();
        add(bytes, field, length, step());
        demand_notice(kind, bytes);
    }

    // A price where nobody delivered, or none where somebody did.
    void no_price(const std::string &kind, std::size_t field, std::size_t tier) {
        Bytes bytes = copy();
        const bool has_price = quarter_.statement.prices()[tier] > Li{0};
        bytes[field] = has_price ? 0 : static_cast<std::uint8_t>(1 + below(255));
        bytes[field + 1] = has_price ? 0 : static_cast<std::uint8_t>(below(256));
        demand_notice(kind + (has_price ? ", taken away" : ", made up"), bytes);
    }

    template <class Fits>
    std::vector<std::size_t> positions(const Fits &fits) const {
        std::vector<std::size_t> found;
        for (std::size_t position = 0; position < lines_.size(); ++position) {
            if (fits(lines_[position])) {
                found.push_back(position);
            }
        }
        return found;
    }

    void in_line(const std::string &kind, std::size_t field, unsigned length) {
        Bytes bytes = copy();
        add(bytes, place(below(lines_.size()), field), length, step());
        demand_notice(kind, bytes);
    }

    // One fen from a row that has one to another of the same part.
    template <class Fits>
    void between(const std::string &kind, std::size_t field, Fen Line::*money, const Fits &fits) {
        const auto givers = positions([&](const Line &line) { return fits(line) && line.*money > Fen{0}; });
        const auto takers = positions(fits);
        if (givers.empty() || takers.size() < 2) {
            return;
        }
        const std::size_t giver = givers[below(givers.size())];
        std::size_t taker = giver;
        while (taker == giver) {
            taker = takers[below(takers.size())];
        }
        Bytes bytes = copy();
        add(bytes, place(giver, field), 4, ~std::uint64_t{0});
        add(bytes, place(taker, field), 4, 1);
        demand_notice(kind, bytes);
    }

    const Quarter &quarter_;
    std::vector<Line> lines_;
    std::mt19937 &random_;
    Tally &tally_;
};

std::string told(const Quarter &quarter, RowId id) {
    const auto answer = quarter.explained(id);
    check::holds(std::holds_alternative<Explanation>(answer), "no explanation");
    const Explanation &explanation = std::get<Explanation>(answer);
    return as_text(explanation, Tongue::english) + as_text(explanation, Tongue::chinese);
}

// The same rows with the terms as issued, which the head states.
void check_alike(const Quarter &plain, const Bytes &interval, const Bytes &correction, Tally &tally) {
    const auto stated = settled(made::stating(issued_terms, interval), correction);
    check::holds(stated && stated->statement.terms() == issued_terms, "refused, or no terms are stated");
    for (const std::size_t position : to_explain(plain)) {
        const RowId id = plain.statement.line(position).id;
        check::equal(told(*stated, id), told(plain, id));
        ++tally.alike;
    }
}

bool is_between(const Quarter &quarter, std::size_t position) {
    const Row &row = quarter.rows[position];
    Rules issued = quarter.rules;
    issued.terms = issued_terms;
    return !quarter.statement.is_averaged() && role_of(row, quarter.rules) == Role::payer &&
           role_of(row, issued) == Role::receiver;
}

bool is_above_average(const Quarter &quarter, std::size_t position) {
    const Row &row = quarter.rows[position];
    Rules averaged = quarter.rules;
    averaged.average = thermal_average(quarter.rows);
    return quarter.statement.is_averaged() && role_of(row, averaged) == Role::payer &&
           role_of(row, quarter.rules) != Role::payer;
}

void count(const Quarter &now, const Quarter &before, Tally &tally) {
    ++tally.statements;
    tally.stated += states_terms(now.statement.bytes());
    tally.averaged += now.statement.is_averaged();
    tally.averaged_and_stated += now.statement.is_averaged() && states_terms(now.statement.bytes());
    tally.turned += now.statement.is_averaged() != before.statement.is_averaged();
    tally.most_rounds = std::max<std::size_t>(tally.most_rounds, now.statement.rounds());
}

void check_pair(const Bytes &interval, const Bytes &correction, std::mt19937 &random, Tally &tally) {
    const auto now = settled(interval, correction);
    if (!now) {
        ++tally.refused;
        return;
    }
    const auto before = settled(interval, {});
    count(*now, before ? *before : *now, tally);
    if (!states_terms(interval)) {
        check_alike(*now, interval, correction, tally);
    }
    for (const std::size_t position : to_explain(*now)) {
        const Line line = now->statement.line(position);
        check_row(*now, line, tally);
        tally.between += is_between(*now, position);
        tally.above_average += is_above_average(*now, position);
        if (!correction.empty() && before) {
            check_reasons(*before, *now, line.id, tally);
        }
    }
    Moving(*now, random, tally).all();
}

void print(const Tally &tally) {
    std::cout << tally.statements << " statements (" << tally.refused << " pairs refused), of these " << tally.stated
              << " with stated terms, at most " << tally.most_rounds << " rounds; " << tally.averaged
              << " averaged, of these " << tally.averaged_and_stated << " with stated terms, and " << tally.turned
              << " averaged only before or only after their corrections; " << tally.rows << " rows explained in "
              << tally.steps << " steps, " << tally.reasons << " reasons; " << tally.alike
              << " rows alike with the terms as issued stated; " << tally.between
              << " that pay and would be paid under these; " << tally.above_average
              << " that pay by the thermal average and would not by their baselines\n";
    for (const auto &[kind, count] : tally.moved) {
        std::cout << "  moved and noticed: " << kind << ", " << count << "\n";
    }
}

} // namespace

int main() {
    std::ios::sync_with_stdio(false);
    std::mt19937 random(20261031); // the same moves at every run
    Tally tally;
    while (const auto interval = next_file(std::cin)) {
        const auto correction = next_file(std::cin);
        check::holds(correction.has_value(), "a pair without its correction");
        check_pair(*interval, *correction, random, tally);
    }
    print(tally);
    check::holds(tally.statements > tally.stated && tally.stated > 0, "one of the two forms was not drawn");
    check::holds(tally.between > 0, "no row lies between a stated baseline and that of the rules as issued");
    check::holds(tally.averaged_and_stated > 0 && tally.averaged > tally.averaged_and_stated && tally.turned > 0,
                 "no quarter that the thermal average rules was drawn, in one of the two forms, or none that turns");
    check::holds(tally.above_average > 0, "no row lies between the thermal average and its baseline");
    return check::passed("drawn");
}
