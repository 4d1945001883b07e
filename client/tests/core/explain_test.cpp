// Explanations word for word, in both tongues.
//
//     explain_test EXAMPLES               prints all of them
//     explain_test EXAMPLES EXPLAINED     holds them against the file
//
// EXAMPLES is the folder of interval X and of the worked figures of docs/TELL.md. The file explained.txt was printed
// once and read against the rules, sentence by sentence; a change of it is to be read in the same way.
#include "check.h"
#include "explain.h"
#include "made.h"

#include "wheatrudder.h"

#include <fstream>
#include <iterator>

using namespace client;

namespace {

// Little-endian bytes.
void put(Bytes &bytes, std::uint64_t number, unsigned length) {
    for (unsigned place = 0; place < length; ++place) {
        bytes.push_back(static_cast<std::uint8_t>(number >> (8 * place)));
    }
}

void put(Bytes &bytes, char letter) {
    put(bytes, static_cast<std::uint8_t>(letter), 1);
}

struct Offer {
    std::uint32_t minimum;
    std::uint16_t bid1, bid2;
};

struct Unit {
    std::uint16_t id;
    Kind kind;
    std::uint16_t capacity;
    std::uint32_t metered;
    Status status = Status::normal;
    std::optional<Offer> offer = {};
};

void put(Bytes &bytes, const Unit &unit) {
    const Offer offer = unit.offer.value_or(Offer{0, 0, 0});
    put(bytes, 'P');
    put(bytes, 'R');
    put(bytes, unit.id, 2);
    put(bytes, static_cast<std::uint8_t>(unit.kind), 1);
    put(bytes, unit.capacity, 2);
    put(bytes, unit.metered, 4);
    put(bytes, static_cast<std::uint8_t>(unit.status), 1);
    put(bytes, unit.offer ? 1 : 0, 1);
    put(bytes, offer.minimum, 4);
    put(bytes, offer.bid1, 2);
    put(bytes, offer.bid2, 2);
}

struct Head {
    std::uint8_t quarter;
    std::uint16_t tariff;
    std::uint32_t need;
};

constexpr std::uint32_t day = 9'800;

Bytes interval(const Head &head, const std::vector<Unit> &units) {
    Bytes bytes;
    put(bytes, 'P');
    put(bytes, 'H');
    put(bytes, day, 4);
    put(bytes, head.quarter, 1);
    put(bytes, head.tariff, 2);
    put(bytes, head.need, 4);
    put(bytes, units.size(), 2);
    for (const Unit &unit : units) {
        put(bytes, unit);
    }
    return bytes;
}

Bytes correction(std::uint8_t quarter, const std::vector<Unit> &units) {
    Bytes bytes;
    put(bytes, 'P');
    put(bytes, 'K');
    put(bytes, day, 4);
    put(bytes, quarter, 1);
    put(bytes, units.size(), 2);
    for (const Unit &unit : units) {
        put(bytes, unit);
    }
    return bytes;
}

Bytes read(const std::string &path) {
    std::ifstream file(path, std::ios::binary);
    check::holds(file.good(), path + " cannot be read");
    return {std::istreambuf_iterator<char>(file), {}};
}

struct Settled {
    Statement statement;
    std::vector<Row> rows;
    Rules rules;
};

Settled settled(const Bytes &interval, const Bytes &correction = {}) {
    const auto answer = settle(interval, correction);
    check::holds(std::holds_alternative<Statement>(answer), "the files are refused");
    const Statement &statement = std::get<Statement>(answer);
    return {statement, counting_rows(interval, correction, statement), rules_of(interval)};
}

std::string explained(const Settled &settled, RowId id, const Namer &name_of) {
    const auto answer = explain(settled.statement, settled.rows, settled.rules, id, name_of);
    if (const auto *disagreement = std::get_if<Disagreement>(&answer)) {
        check::holds(false, disagreement->check.in(Tongue::english));
    }
    const Explanation &explanation = std::get<Explanation>(answer);
    return as_text(explanation, Tongue::english) + "\n" + as_text(explanation, Tongue::chinese);
}

class Book {
  public:
    // Rows that are left out are like others that are in.
    void add(const std::string &title, const Bytes &interval, const std::vector<std::uint16_t> &ids,
             const Namer &name_of = {}) {
        const Settled quarter = settled(interval);
        for (const std::uint16_t id : ids) {
            text_ += "=== " + title + ", row " + std::to_string(id) + "\n\n" + explained(quarter, {id}, name_of) + "\n";
        }
    }

    void add_reasons(const std::string &title, const Bytes &interval, const Bytes &correction,
                     const std::vector<std::uint16_t> &ids, const Namer &name_of = {}) {
        const Settled before = settled(interval), now = settled(interval, correction);
        for (const std::uint16_t id : ids) {
            text_ += "=== " + title + ", row " + std::to_string(id) + "\n";
            const auto all = reasons({before.statement, before.rows}, {now.statement, now.rows}, {id}, name_of);
            for (const Tongue tongue : {Tongue::english, Tongue::chinese}) {
                text_ += "\n";
                for (const Said &reason : all) {
                    text_ += reason.in(tongue) + "\n";
                }
            }
            text_ += "\n";
        }
    }

    const std::string &text() const { return text_; }

  private:
    std::string text_;
};

// Interval X at five tariffs (document 01, P1 to P5).
void add_interval_x(Book &book, const std::string &examples) {
    Bytes x = read(examples + "/x.interval");
    for (const unsigned tariff : {3545u, 1350u, 1300u, 1200u, 1000u}) {
        x[7] = static_cast<std::uint8_t>(tariff);
        x[8] = static_cast<std::uint8_t>(tariff >> 8);
        book.add("Interval X at tariff " + std::to_string(tariff), x, {1, 2, 3});
    }
}

// The worked figures of docs/TELL.md.
void add_worked_figures(Book &book, const std::string &examples) {
    const auto add = [&](const std::string &name, const std::vector<std::uint16_t> &ids) {
        book.add(name, read(examples + "/tell/" + name + ".interval"), ids);
    };
    add("no-payers", {1, 2, 3, 4});
    add("undelivered", {1, 2, 3});
    add("outbid", {1, 2});
    add("odd-fen", {1, 2, 3});
    add("odd-cut", {1, 2, 4});
    add("reduced", {1, 2, 3});
    add("reduced-payer", {1, 2, 3});
    add("odd-return", {1, 2, 3});
    add("each-its-round", {1, 2, 3, 4});
    add("two-at-once", {3, 4});
    add("stated-45", {1, 2, 3});
    add("stated-01", {2});
    add("between", {1, 2, 3});
    add("limits-meet", {1, 2});
    add("no-wind", {1, 2, 3});
    add("no-wind-above", {1, 2, 3});
    add("no-wind-no-need", {1, 2});
    add("some-wind", {1, 2, 4});
    add("no-wind-low", {1, 2, 3, 4});
    add("no-wind-reduced", {1, 2, 3, 4});
    add("no-wind-stated", {1, 2, 3});
}

const Unit seller{1, Kind::thermal, 100, 9'000, Status::normal, Offer{8'000, 200, 400}};

// Roles, weights and caps that the worked figures do not have.
void add_roles(Book &book) {
    book.add("Rows that pay or get nothing, and others",
             interval({37, 1, 2'600}, {seller,
                                       {2, Kind::wind, 50, 0},
                                       {3, Kind::solar, 50, 199},
                                       {4, Kind::thermal, 100, 12'500},
                                       {5, Kind::thermal, 100, 12'000, Status::normal, Offer{10'000, 300, 500}},
                                       {6, Kind::thermal, 100, 12'000, Status::starting},
                                       {7, Kind::thermal, 100, 12'000, Status::reduced},
                                       {8, Kind::solar, 50, 7'000, Status::accident},
                                       {9, Kind::thermal, 100, 19'999, Status::starting},
                                       {10, Kind::thermal, 100, 12'499},
                                       {753, Kind::thermal, 300, 52'501}}),
             {2, 3, 4, 5, 6, 7, 8, 9, 10, 753});
    book.add("Tiers that are not called, or not delivered",
             interval({95, 4'000, 5'100}, {{11, Kind::thermal, 100, 9'001, Status::normal, Offer{8'000, 203, 451}},
                                           {12, Kind::thermal, 100, 9'500, Status::normal, Offer{10'000, 201, 400}},
                                           {13, Kind::thermal, 100, 11'111, Status::normal, Offer{9'500, 202, 450}},
                                           {14, Kind::wind, 100, 20'001},
                                           {15, Kind::wind, 100, 13'333}}),
             {11, 12, 13, 14, 15});
}

// Penalties that the worked figures do not have.
void add_penalties(Book &book) {
    const Offer both{8'000, 200, 400};
    book.add("Penalties that fill a part of the shortfall",
             interval({5, 300, 12'000}, {seller,
                                         {2, Kind::thermal, 100, 8'100, Status::reduced, both},
                                         {3, Kind::thermal, 100, 10'501, Status::reduced, Offer{10'000, 150, 320}},
                                         {4, Kind::wind, 100, 5'001}}),
             {1, 2, 3, 4});
    book.add("Penalties that nobody needs",
             interval({5, 3'545, 9'000},
                      {seller, {2, Kind::thermal, 100, 8'101, Status::reduced, both}, {3, Kind::wind, 100, 9'001}}),
             {2});
    book.add("A tier without a price",
             interval({5, 1'300, 9'000}, {{1, Kind::thermal, 100, 10'000, Status::normal, both},
                                          {2, Kind::thermal, 100, 12'497, Status::reduced, Offer{8'000, 205, 400}},
                                          {3, Kind::thermal, 100, 12'500, Status::reduced, Offer{11'000, 110, 400}},
                                          {4, Kind::thermal, 100, 20'000, Status::reduced}}),
             {2, 3, 4});
}

// A quarter under a baseline of 45 percent, 11,250 kWh of 100 MW and 11,362 of 101 MW, by hand.
//
// Tier 1 is 1,250 kWh wide, of row 2, whose minimum is 11,000, 250. Rows 6, 1 and 2 are called for all of it, by rising
// bids, then row 1 for 2,000 in tier 2; 1,250 of the need stay uncovered. Row 1 holds back 1,250 and 1,000 kWh at 200
// and 400 li: 650.00 yuan. Row 2 ran at 48 percent: it pays. Rows 2, 3 and 4 weigh 750, 16,250 and 5,000 kWh and pay
// 22.16, 480.11 and 147.73 yuan. Row 5 ran at its baseline. Row 6 holds back 250 kWh, and owes 2 × 0.200 yuan for each
// of the other 1,000: 400.00 yuan, which nobody needs.
//
// As issued tier 1 is 2,500 kWh wide, of row 2 1,500. Rows 6, 1 and 2 are called for 2,500, 2,500 and 1,000; row 2 sets
// the price, 210 li, and is paid for 500 kWh: 105.00 yuan.
const std::vector<Unit> around_45{{1, Kind::thermal, 100, 9'000, Status::normal, Offer{8'000, 200, 400}},
                                  {2, Kind::thermal, 100, 12'000, Status::normal, Offer{11'000, 210, 400}},
                                  {3, Kind::thermal, 100, 20'000},
                                  {4, Kind::wind, 100, 5'000},
                                  {5, Kind::thermal, 101, 11'362},
                                  {6, Kind::thermal, 100, 11'000, Status::reduced, Offer{10'000, 190, 400}}};

void add_terms(Book &book) {
    const Bytes issued = interval({9, 1'300, 6'000}, around_45), stated = made::stating(made::other_terms, issued);
    book.add("Terms that the interval file states", stated, {1, 2, 3, 4, 5, 6});
    book.add("The same rows under the terms as issued", issued, {1, 2, 5});
    Unit lower = around_45[1];
    lower.metered = 11'000;
    book.add_reasons("Terms that the interval file states, a neighbour goes below the baseline", stated,
                     correction(9, {lower}), {2, 4});
}

// A quarter that the thermal average rules, by hand: 73,500 kWh of 700 MW, 10,500 of each 100.
//
// Rows 7, 1 and 2 are called for 2,500 kWh each in tier 1, and rows 1 and 7 share the other 2,000 in tier 2 by their
// widths, 2,000 and 1,000: 1,333 and 667. Row 1 holds back 500 and 1,000 kWh at 200 and 400 li: 500.00 yuan. Rows 2 and
// 6 weigh 1,500 and 1,000 kWh and pay 300.00 and 200.00 yuan. Row 3 ran at the average. Row 7 holds back 500 and 250
// kWh, and owes 2 × 0.200 yuan for each of 2,000 and 2 × 0.400 for each of 417: 1,133.60 yuan, which nobody needs.
const std::vector<Unit> around_average{{1, Kind::thermal, 100, 9'000, Status::normal, Offer{8'000, 200, 400}},
                                       {2, Kind::thermal, 100, 12'000, Status::normal, Offer{10'000, 210, 400}},
                                       {3, Kind::thermal, 100, 10'500},
                                       {4, Kind::wind, 100, 0},
                                       {5, Kind::solar, 100, 0, Status::accident},
                                       {6, Kind::thermal, 200, 22'000, Status::starting},
                                       {7, Kind::thermal, 100, 9'750, Status::reduced, Offer{9'000, 190, 400}},
                                       {8, Kind::thermal, 100, 10'250, Status::starting}};

// A row of these with another reading.
Unit with_meter(std::size_t position, std::uint32_t metered) {
    Unit unit = around_average[position];
    unit.metered = metered;
    return unit;
}

void add_average(Book &book) {
    const Bytes still = interval({9, 1'300, 9'500}, around_average);
    book.add("The thermal average rules", still, {1, 2, 3, 4, 5, 6, 7, 8});
    book.add_reasons("The thermal average rules no more: a wind farm produced", still,
                     correction(9, {with_meter(3, 5'000)}), {1, 4});
    book.add_reasons("The thermal average is another: a neighbour's meter", still,
                     correction(9, {with_meter(1, 11'300)}), {1, 2, 6});
    std::vector<Unit> above = around_average;
    above[1] = with_meter(1, 12'501);
    book.add_reasons("The thermal average rules now: nobody is above half load any more",
                     interval({9, 1'300, 9'500}, above), correction(9, {around_average[1]}), {2, 6});
}

const Unit large_seller{1, Kind::thermal, 2'000, 0, Status::normal, Offer{0, 320, 750}};

Bytes many_rows_in_one_round() {
    std::vector<Unit> units{large_seller};
    for (std::uint16_t id = 2; id <= 13; ++id) {
        units.push_back({id, Kind::wind, 2'000, 40'000u + id});
    }
    units.push_back({20, Kind::thermal, 2'000, 252'000});
    units.push_back({21, Kind::thermal, 2'000, 250'001});
    return interval({40, 400, 400'000}, units);
}

// Caps that are reached by many rows at once, and in many rounds.
void add_many_rounds(Book &book) {
    book.add("Many rows in one round", many_rows_in_one_round(), {13, 21});
    std::vector<Unit> units{large_seller};
    std::uint16_t id = 100;
    for (const std::uint32_t metered : {526'108u, 503'211u, 454'374u, 376'657u, 352'349u, 348'743u, 301'838u, 300'561u,
                                        290'610u, 284'976u, 283'203u, 282'499u, 255'334u, 250'768u}) {
        units.push_back({id++, Kind::thermal, 2'000, metered});
    }
    book.add("Many rounds", interval({40, 1'523, 400'000}, units), {104, 111, 113});
}

void add_corrections(Book &book, const std::string &examples) {
    book.add_reasons("Interval X with its correction", read(examples + "/x.interval"), read(examples + "/x.correction"),
                     {1, 2, 3});
    const Unit wind{3, Kind::wind, 100, 5'000}, high{2, Kind::thermal, 100, 20'000};
    const Bytes x = interval({9, 3'545, 3'000}, {seller, high, wind});
    const auto replaced = [](Unit unit, std::uint32_t metered, Status status = Status::normal) {
        unit.metered = metered;
        unit.status = status;
        return unit;
    };
    book.add_reasons("A neighbour's meter", x, correction(9, {replaced(wind, 6'000)}), {1, 2, 3});
    book.add_reasons("The seller's status", x, correction(9, {replaced(seller, 9'000, Status::reduced)}), {1, 2});
    book.add_reasons("Two neighbours", x, correction(9, {replaced(seller, 8'000), replaced(high, 0, Status::accident)}),
                     {3});
    book.add_reasons("The same figures again", x, correction(9, {wind}), {2, 3});
    std::vector<Unit> farms{seller}, more;
    for (std::uint16_t id = 2; id <= 10; ++id) {
        farms.push_back({id, Kind::wind, 100, 5'000});
        more.push_back({id, Kind::wind, 100, 5'001});
    }
    more.pop_back();
    book.add_reasons("Many neighbours", interval({9, 200, 3'000}, farms), correction(9, more), {10, 2});
    more.pop_back();
    book.add_reasons("Many neighbours, one fewer", interval({9, 3'545, 3'000}, farms), correction(9, more), {10});
}

// Rows 1 to 3 have names, the others have none.
std::string name_in_folder(RowId id, Tongue tongue) {
    switch (id.number) {
    case 1:
        return tongue == Tongue::english ? "Lower Power" : "下游电厂";
    case 2:
        return tongue == Tongue::english ? "Upper Power" : "上游电厂";
    case 3:
        return tongue == Tongue::english ? "North Wind" : "北坡风电场";
    default:
        return {};
    }
}

// Names where a step or a reason speaks of a neighbour: one, a few with and without names, and many.
void add_names(Book &book, const std::string &examples) {
    Bytes x = read(examples + "/x.interval");
    x[7] = 1'200 % 256;
    x[8] = 1'200 / 256;
    book.add("Interval X at tariff 1200 with names", x, {3}, name_in_folder);
    const Bytes two = read(examples + "/tell/two-at-once.interval");
    book.add("two-at-once with names", two, {4}, name_in_folder);
    book.add("two-at-once with one name", two, {4},
             [](RowId id, Tongue tongue) { return id == RowId{3} ? name_in_folder(id, tongue) : std::string(); });
    book.add("Many rows in one round, three with names", many_rows_in_one_round(), {21}, name_in_folder);
    book.add("odd-fen with names", read(examples + "/tell/odd-fen.interval"), {4}, name_in_folder);
    book.add_reasons("Interval X with its correction and names", read(examples + "/x.interval"),
                     read(examples + "/x.correction"), {2, 3}, name_in_folder);
    const Unit high{2, Kind::thermal, 100, 20'000}, wind{3, Kind::wind, 100, 5'000}, solar{4, Kind::solar, 100, 5'000};
    const Unit stopped{2, Kind::thermal, 100, 20'000, Status::accident}, less{4, Kind::solar, 100, 4'000};
    const Unit windier{3, Kind::wind, 100, 6'000};
    book.add_reasons("A neighbour's meter with names", interval({9, 3'545, 3'000}, {seller, high, wind}),
                     correction(9, {windier}), {2}, name_in_folder);
    book.add_reasons("A neighbour with a name and one without",
                     interval({9, 3'545, 3'000}, {seller, high, wind, solar}), correction(9, {stopped, less}), {3},
                     name_in_folder);
}

// Files that state the terms as issued are explained as files that state none, word for word.
void check_alike(const std::string &examples) {
    std::vector<Bytes> files{read(examples + "/x.interval"), many_rows_in_one_round(),
                             interval({9, 1'300, 6'000}, around_45)};
    for (const char *name :
         {"no-payers", "undelivered", "outbid", "odd-fen", "odd-cut", "reduced", "reduced-payer", "odd-return",
          "each-its-round", "two-at-once", "full", "no-rows", "no-wind", "no-wind-low", "no-wind-reduced"}) {
        files.push_back(read(examples + "/tell/" + name + ".interval"));
    }
    for (const Bytes &file : files) {
        const Settled plain = settled(file), stated = settled(made::stating(issued_terms, file));
        check::holds(stated.rules.form == pg_form && stated.statement.terms() == issued_terms, "no terms are stated");
        check::holds(plain.statement.lines() == stated.statement.lines(), "other lines");
        for (const Line &line : plain.statement.lines()) {
            check::equal(explained(stated, line.id, name_in_folder), explained(plain, line.id, name_in_folder));
        }
    }
}

std::string check_failed(const Statement &statement, const std::vector<Row> &rows, const Rules &rules,
                         std::uint16_t id) {
    const auto answer = explain(statement, rows, rules, {id}, name_in_folder);
    const auto *disagreement = std::get_if<Disagreement>(&answer);
    return disagreement == nullptr ? "none" : disagreement->check.in(Tongue::english);
}

// What is said where statement and rows do not fit: no figure is ever explained then. Of interval X in either form.
void check_disagreements(const Bytes &x) {
    const auto [statement, rows, rules] = settled(x);
    const Bytes bytes(statement.bytes().begin(), statement.bytes().end());
    const auto failed = [&, &rows = rows, &rules = rules](const Bytes &altered) {
        return check_failed(Statement(altered), rows, rules, 2);
    };
    Rules dearer = rules;
    dearer.tariff += Hao{1};
    check::equal(failed(bytes), "none");
    check::equal(check_failed(statement, rows, rules, 4), "row 4 is not in the statement");
    check::equal(check_failed(statement, rows, dearer, 2), "cap of row 2");
    check::equal(check_failed(statement, {rows[0], rows[1]}, rules, 2), "rows of the files and lines of the statement");
    check::equal(check_failed(statement, {rows[1], rows[0], rows[2]}, rules, 2),
                 "rows of the files and lines of the statement");
    std::vector<Row> other = rows;
    other[2].metered += Kwh{1};
    check::equal(check_failed(statement, other, rules, 2), "weight of row 3");
    for (std::size_t length = 0; length < bytes.size(); ++length) {
        check::equal(failed(Bytes(bytes.begin(), bytes.begin() + static_cast<std::ptrdiff_t>(length))),
                     "length of the statement");
    }
    // Any byte at any place: no figure of it may bring the explanation down. Another mark is noticed, other terms, and
    // any other number that says whether the thermal average rules.
    const bool has_terms = statement.terms().has_value();
    const std::size_t terms_end = has_terms ? WHEATRUDDER_HEAD_VISITS_PT : WHEATRUDDER_HEAD_PERCENT_PT;
    const std::size_t averaged = has_terms ? WHEATRUDDER_HEAD_AVERAGED_PT : WHEATRUDDER_HEAD_AVERAGED_PS;
    for (std::size_t place = 0; place < bytes.size(); ++place) {
        const bool is_of_terms = place >= WHEATRUDDER_HEAD_PERCENT_PT && place < terms_end;
        for (unsigned byte = 0; byte < 256; ++byte) {
            Bytes altered = bytes;
            altered[place] = static_cast<std::uint8_t>(byte);
            const std::string check = failed(altered);
            check::holds(!check.empty(), "an explanation, or a check in words");
            if (altered != bytes && (place < 2 || is_of_terms)) {
                // A mark that says PT, or no longer does, says another length too.
                const bool is_other_form = place < 2 && has_terms != states_terms(altered);
                check::equal(check, is_other_form ? "length of the statement" : "mark and terms of the statement");
            }
            if (altered != bytes && place == averaged) {
                check::equal(check, "whether the thermal average rules");
            }
        }
    }
}

// A statement with figures moved: what is added to the lowest byte of each place.
struct Moved {
    std::vector<std::pair<std::size_t, int>> places;
    std::string notice;
};

void check_notices(const Bytes &interval, const std::vector<Moved> &all) {
    const auto [statement, rows, rules] = settled(interval);
    for (const Moved &moved : all) {
        Bytes bytes(statement.bytes().begin(), statement.bytes().end());
        for (const auto &[place, by] : moved.places) {
            bytes[place] = static_cast<std::uint8_t>(bytes[place] + by);
        }
        check::equal(check_failed(Statement(bytes), rows, rules, 2), moved.notice);
    }
}

std::size_t at(std::size_t position, std::size_t field) {
    return ps_form.length(position) + field;
}

// The check that notices a moved figure names it.
void check_names_of_checks(const std::string &examples) {
    Bytes x = read(examples + "/x.interval");
    x[7] = 1'000 % 256;
    x[8] = 1'000 / 256;
    const std::string covered = "payments and shortfall against all compensations";
    check_notices(x,
                  {{{{WHEATRUDDER_HEAD_TOTAL, 1}}, "sum of all compensations"},
                   {{{WHEATRUDDER_HEAD_SHORTFALL, 1}}, covered},
                   {{{WHEATRUDDER_HEAD_ROUNDS, 1}}, "number of rounds"},
                   {{{WHEATRUDDER_HEAD_VISITS_PS, 1}}, "number of visits to payers"},
                   {{{WHEATRUDDER_HEAD_AVERAGED_PS, 1}}, "whether the thermal average rules"},
                   {{{WHEATRUDDER_HEAD_PRICE1, -200}}, "whether tier 1 has a price"},
                   {{{WHEATRUDDER_HEAD_PRICE2, -400}, {WHEATRUDDER_HEAD_PRICE2 + 1, -1}}, "whether tier 2 has a price"},
                   {{{at(0, WHEATRUDDER_LINE_COMPENSATION), 1}}, "sum of all compensations"},
                   {{{at(0, WHEATRUDDER_LINE_CUT), 1}}, "sum of all cuts"},
                   {{{at(1, WHEATRUDDER_LINE_WEIGHT), 1}}, "weight of row 2"},
                   {{{at(1, WHEATRUDDER_LINE_CAP), 1}}, "cap of row 2"},
                   {{{at(1, WHEATRUDDER_LINE_PAID), 1}}, covered},
                   {{{at(1, WHEATRUDDER_LINE_PAID), 1}, {at(2, WHEATRUDDER_LINE_PAID), -1}}, "payment of row 2"},
                   {{{at(2, WHEATRUDDER_LINE_CLOSING), -1}}, "round in which row 3 reached its cap"},
                   {{{at(2, WHEATRUDDER_LINE_RETURNED), 1}}, "sum of all that is returned"}});
    const std::size_t nine = pt_form.head - ps_form.head; // by which all that follows is moved
    check_notices(
        made::stating(made::other_terms, interval({9, 1'300, 6'000}, around_45)),
        {{{{WHEATRUDDER_HEAD_VISITS_PT, 1}}, "number of visits to payers"},
         {{{WHEATRUDDER_HEAD_PERCENT_PT, 1}}, "mark and terms of the statement"},
         {{{WHEATRUDDER_HEAD_LIMITS_PT + 6, -1}}, "mark and terms of the statement"},
         {{{at(1, WHEATRUDDER_LINE_WEIGHT) + nine, 1}}, "weight of row 2"},
         {{{at(2, WHEATRUDDER_LINE_PAID) + nine, 1}, {at(3, WHEATRUDDER_LINE_PAID) + nine, -1}}, "payment of row 3"}});
    // The average of row 1 is 8,333 kWh: nobody delivers in tier 1.
    check_notices(read(examples + "/tell/no-wind-low.interval"),
                  {{{{WHEATRUDDER_HEAD_AVERAGED_PS, -1}}, "whether the thermal average rules"},
                   {{{WHEATRUDDER_HEAD_AVERAGED_PS, 1}}, "whether the thermal average rules"},
                   {{{WHEATRUDDER_HEAD_PRICE1, 1}}, "whether tier 1 has a price"},
                   {{{at(2, WHEATRUDDER_LINE_WEIGHT), 1}}, "weight of row 3"}});
    check_notices(read(examples + "/tell/no-payers.interval"),
                  {{{{at(0, WHEATRUDDER_LINE_COMPENSATION), 1}, {at(1, WHEATRUDDER_LINE_COMPENSATION), -1}},
                    "compensation of row 1"},
                   {{{at(0, WHEATRUDDER_LINE_CUT), -1}, {at(1, WHEATRUDDER_LINE_CUT), 1}}, "cut of row 1"}});
    check_notices(read(examples + "/tell/odd-return.interval"),
                  {{{{at(1, WHEATRUDDER_LINE_PENALTY), -1}, {at(2, WHEATRUDDER_LINE_PENALTY), 1}}, "penalty of row 2"},
                   {{{at(1, WHEATRUDDER_LINE_RETURNED), 1}, {at(3, WHEATRUDDER_LINE_RETURNED), -1}},
                    "what is returned to row 2"}});
}

// The first line in which two texts differ.
void compare(const std::string &is, const std::string &due) {
    std::istringstream lines_is(is), lines_due(due);
    std::string line_is, line_due;
    for (std::size_t number = 1; true; ++number) {
        const bool more_is = static_cast<bool>(std::getline(lines_is, line_is));
        const bool more_due = static_cast<bool>(std::getline(lines_due, line_due));
        check::equal(more_is, more_due, "whether there is a line " + std::to_string(number));
        if (!more_is) {
            return;
        }
        check::equal(line_is, line_due, "line " + std::to_string(number));
    }
}

} // namespace

int main(int count, char **words) {
    check::holds(count == 2 || count == 3, "explain_test EXAMPLES [EXPLAINED]");
    const std::string examples = words[1];
    Book book;
    add_interval_x(book, examples);
    add_worked_figures(book, examples);
    add_roles(book);
    add_penalties(book);
    add_terms(book);
    add_average(book);
    add_many_rounds(book);
    add_corrections(book, examples);
    add_names(book, examples);
    if (count == 2) {
        std::cout << book.text();
        return 0;
    }
    const Bytes due = read(words[2]);
    compare(book.text(), {due.begin(), due.end()});
    check_alike(examples);
    const Bytes x = read(examples + "/x.interval");
    check_disagreements(x);
    check_disagreements(made::stating(issued_terms, x));
    check_disagreements(read(examples + "/tell/no-wind.interval"));
    check_names_of_checks(examples);
    return check::passed("explain");
}
