// The rules of a quarter, from the head of its interval file. Every figure here was worked out by hand from document 01
// with 45 percent in the place of 50 (document 02, request 6): 45, 40, 60 and 70 percent of 100 MW are 11,250, 10,000,
// 15,000 and 17,500 kWh. So was every figure of a quarter that the thermal average rules (request 9).
#include "average.h"
#include "check.h"
#include "duties.h"
#include "explain.h"
#include "made.h"

#include <map>

using namespace client;

namespace {

void set(Bytes &bytes, std::size_t at, std::uint64_t number, std::size_t width) {
    for (std::size_t place = 0; place < width; ++place) {
        bytes.at(at + place) = static_cast<std::uint8_t>(number >> (8 * place));
    }
}

// An interval file without rows, at 0.1300 yuan for each kWh.
Bytes interval() {
    return made::interval({{0}, {0}}, 1'300, {}, 0);
}

// The rules of one that states this baseline.
Rules rules_at(int baseline) {
    return rules_of(made::stating({baseline, made::other_terms.limits}, interval()));
}

Row thermal(std::int64_t metered, Status status = Status::normal, std::int64_t capacity = 100) {
    return {{1}, Kind::thermal, capacity, {metered}, status};
}

void check_forms() {
    const auto lengths = [](const Bytes &bytes) {
        const auto form = form_of(bytes);
        return form ? std::to_string(form->head) + " + " + std::to_string(form->row) : "none";
    };
    check::equal(lengths({'P', 'H'}), "15 + 21");
    check::equal(lengths({'P', 'G'}), "24 + 21");
    check::equal(lengths({'P', 'K', 0}), "9 + 21");
    check::equal(lengths({'P', 'S'}), "40 + 42");
    check::equal(lengths({'P', 'T'}), "49 + 42");
    for (const Bytes &other : {Bytes{}, Bytes{'P'}, Bytes{'P', 'W'}, Bytes{'H', 'P'}, Bytes{'P', 'h'}, Bytes{'K'}}) {
        check::equal(lengths(other), "none");
    }
    check::equal(ph_form.length(256), std::size_t{5'391});
    check::equal(pg_form.length(256), std::size_t{5'400});
    check::equal(pt_form.length(256), std::size_t{10'801});
}

// A whole file of one form has never, and not with a byte more or less either, the length of another form.
void check_lengths() {
    std::map<std::size_t, FileForm> whole;
    for (const FileForm &form : forms) {
        for (std::size_t rows = 0; rows <= 256; ++rows) {
            whole.emplace(form.length(rows), form);
        }
    }
    check::equal(whole.size(), 257 * forms.size(), "lengths");
    for (const auto &[length, form] : whole) {
        const auto next = whole.find(length + 1);
        check::holds(next == whole.end(), "two forms of nearly one length");
    }
}

std::string described(const Terms &terms) {
    std::string all = std::to_string(terms.baseline);
    for (const Li limit : terms.limits) {
        all.append(" ").append(std::to_string(limit.count));
    }
    return all;
}

// What a head PH means.
void check_rules_as_issued() {
    const Rules rules = rules_of(interval());
    check::holds(rules.form == ph_form, "the form");
    check::equal(rules.tariff.count, 1'300);
    check::equal(rules.need.count, 0);
    check::holds(!rules.average, "a head knows of no average");
    check::equal(described(rules.terms), "50 100 320 320 750");
    check::equal(rules.tier_2, 40);
    check::holds(rules.band_ends == std::array{60, 70} && rules.factors == std::array{1, 2, 3}, "the weights");
    check::holds(rules.thermal_cap == Ratio{1, 4} && rules.renewable_cap == Ratio{1, 2}, "the caps");
    check::equal(rules.penalty, 2);
    check::holds(!head_of(interval()).terms, "a head PH states terms");
}

// A head PG states its terms, and means the same by all else.
void check_rules_as_stated() {
    const Bytes stating = made::stating({41, {Li{1}, Li{258}, Li{259}, Li{1'000}}}, interval());
    check::equal(stating.size(), std::size_t{24});
    check::equal(described(head_of(stating).terms.value()), "41 1 258 259 1000");
    Rules rules = rules_of(stating);
    check::holds(rules.form == pg_form, "the form");
    check::equal(described(rules.terms), "41 1 258 259 1000");
    rules.form = ph_form;
    rules.terms = issued_terms;
    check::holds(rules == rules_of(interval()), "something but the terms differs");
}

// Check 14, number by number.
void check_terms_allowed() {
    const auto are = [](int baseline, std::int64_t first, std::int64_t second, std::int64_t third, std::int64_t last) {
        return are_allowed({baseline, {Li{first}, Li{second}, Li{third}, Li{last}}});
    };
    check::holds(are(50, 100, 320, 320, 750) && are(41, 1, 2, 2, 3) && are(45, 150, 300, 350, 1'000), "allowed");
    check::holds(!are(40, 100, 320, 320, 750) && !are(51, 100, 320, 320, 750) && !are(0, 100, 320, 320, 750),
                 "baseline");
    check::holds(!are(45, 0, 320, 320, 750) && !are(45, 320, 320, 320, 750) && !are(45, 100, 321, 320, 750) &&
                     !are(45, 100, 320, 750, 750) && !are(45, 100, 320, 320, 1'001),
                 "limits");
    // The engine says the same of a file that states them.
    for (const int baseline : {40, 41, 45, 50, 51, 255}) {
        for (const auto &limits : std::vector<std::array<Li, 4>>{{Li{100}, Li{320}, Li{320}, Li{750}},
                                                                 {Li{0}, Li{1}, Li{1}, Li{2}},
                                                                 {Li{1}, Li{1}, Li{2}, Li{3}},
                                                                 {Li{1}, Li{3}, Li{2}, Li{4}},
                                                                 {Li{1}, Li{2}, Li{3}, Li{3}},
                                                                 {Li{997}, Li{998}, Li{999}, Li{1'000}},
                                                                 {Li{998}, Li{999}, Li{1'000}, Li{1'001}}}) {
            const Terms terms{baseline, limits};
            const auto answer = settle(made::stating(terms, interval()), {});
            const auto *refusal = std::get_if<Refusal>(&answer);
            check::equal(refusal == nullptr ? 0 : refusal->number, are_allowed(terms) ? 0u : 14u, described(terms));
        }
    }
}

// Minimum and bids of an offering row of 101 MW under 45 percent: its baseline is 11,362.5 kWh, cut.
void check_offers() {
    const auto number = [](unsigned minimum, unsigned bid1, unsigned bid2) {
        const Bytes file = made::interval({{0}, {0}}, 1'300, {{1, 1, 101, 9'000, 0, 1, minimum, bid1, bid2}});
        const auto answer = settle(made::stating(made::other_terms, file), {});
        const auto *refusal = std::get_if<Refusal>(&answer);
        return refusal == nullptr ? 0 : refusal->number;
    };
    check::equal(number(11'362, 150, 350), 0u);
    check::equal(number(11'363, 150, 350), 6u);
    check::equal(number(0, 300, 650), 0u);
    check::equal(number(0, 149, 350), 6u);
    check::equal(number(0, 301, 350), 6u);
    check::equal(number(0, 150, 349), 6u);
    check::equal(number(0, 150, 651), 6u);
    // A correction's row is held to the terms of its interval file.
    const made::Entry row{1, 1, 100, 9'000, 0, 1, 8'000, 160, 360};
    const Bytes file = made::stating(made::other_terms, made::interval({{0}, {0}}, 1'300, {row}));
    const auto corrected = [&](unsigned minimum, unsigned bid1) {
        made::Entry other = row;
        other.minimum = minimum;
        other.bid1 = bid1;
        const auto answer = settle(file, made::correction({{0}, {0}}, {other}));
        const auto *refusal = std::get_if<Refusal>(&answer);
        return refusal == nullptr ? 0 : refusal->number;
    };
    check::equal(corrected(8'000, 160), 0u);
    check::equal(corrected(11'251, 160), 8u);
    check::equal(corrected(11'250, 160), 10u); // within the terms, and not the row's
    check::equal(corrected(8'000, 149), 8u);
}

void check_roles() {
    const Rules issued = rules_at(50), lower = rules_at(45);
    const auto is = [](Role role, const Row &row, const Rules &rules) {
        check::holds(role_of(row, rules) == role, "the role at " + text(row.metered));
    };
    is(Role::receiver, thermal(12'000), issued);
    is(Role::payer, thermal(12'000), lower);
    is(Role::payer, thermal(11'250), lower);
    is(Role::receiver, thermal(11'249), lower);
    is(Role::bystander, thermal(11'249, Status::starting), lower);
    is(Role::payer, thermal(11'250, Status::reduced), lower);
    is(Role::bystander, thermal(20'000, Status::accident), lower);
    // 45 percent of 101 MW is 11,362.5 kWh, cut.
    is(Role::payer, thermal(11'362, Status::normal, 101), lower);
    is(Role::receiver, thermal(11'361, Status::normal, 101), lower);
}

void check_energies() {
    const auto held = [](const Row &row, int baseline) {
        const auto [first, second] = held_back(row, rules_at(baseline));
        return text(first) + " " + text(second);
    };
    check::equal(held(thermal(9'000), 50), "2,500 1,000");
    check::equal(held(thermal(9'000), 45), "1,250 1,000");
    check::equal(held(thermal(11'000), 45), "250 0");
    check::equal(held(thermal(11'250), 45), "0 0");
    check::equal(held(thermal(11'361, Status::normal, 101), 45), "1 0");
    const auto weight = [](std::int64_t metered, int baseline) {
        return weight_of(thermal(metered), rules_at(baseline)).count;
    };
    check::equal(weight(20'000, 50), 15'000);
    check::equal(weight(20'000, 45), 16'250);
    check::equal(weight(11'249, 45), 0);
    check::equal(weight(11'250, 45), 0);
    check::equal(weight(11'251, 45), 1);
    check::equal(weight(15'000, 45), 3'750);
    check::equal(weight(15'001, 45), 3'752);
    check::equal(weight(17'500, 45), 8'750);
    check::equal(weight(17'501, 45), 8'753);
}

// Every other number of the rules, moved by itself.
void check_other_numbers() {
    Rules rules = rules_at(50);
    rules.tier_2 = 35;
    check::equal(held_back(thermal(9'000), rules)[0].count, 3'500);
    check::equal(held_back(thermal(9'000), rules)[1].count, 0);
    rules.band_ends = {70, 80};
    check::equal(weight_of(thermal(20'000), rules).count, 5'000 + 2 * 2'500);
    rules.factors = {2, 3, 4};
    check::equal(weight_of(thermal(20'001), rules).count, 2 * 5'000 + 3 * 2'500 + 4 * 1);
    const Row wind{{2}, Kind::wind, 100, {5'000}, Status::normal};
    check::equal(cap_of(thermal(20'000), rules).cut().count, 65'000);
    check::equal(cap_of(wind, rules).cut().count, 32'500);
    rules.thermal_cap = {3, 4};
    rules.renewable_cap = {4, 5};
    check::equal(cap_of(thermal(20'000), rules).cut().count, 195'000);
    check::equal(cap_of(wind, rules).cut().count, 52'000);
    // 1,000 kWh are called and 500 held back.
    const Row reduced = thermal(12'000, Status::reduced);
    const Calls calls{{Kwh{1'000}, Kwh{0}}, {Li{200}, Li{0}}};
    check::equal(penalty_of(reduced, rules, calls).rounded().count, 20'000);
    rules.penalty = 3;
    check::equal(penalty_of(reduced, rules, calls).rounded().count, 30'000);
}

Row still(Kind kind, Status status = Status::normal, std::int64_t metered = 0) {
    return {{9}, kind, 100, {metered}, status};
}

// When the thermal average rules, and of what it is made: 9,000 and 25,000 kWh of 100 and 200 MW.
void check_ruling_average() {
    const auto average = [](const std::vector<Row> &rows, int baseline = 50, std::int64_t need = 1) {
        Rules rules = rules_at(baseline);
        rules.need = {need};
        const auto found = ruling_average(rows, rules);
        return found ? text(found->energy) + " " + text(found->capacity) : "none";
    };
    const Row low = thermal(9'000), at_baseline = thermal(25'000, Status::normal, 200);
    check::equal(average({low, at_baseline}), "34,000 300");
    check::equal(average({low, at_baseline, still(Kind::wind), still(Kind::solar, Status::accident)}), "34,000 300");
    check::equal(average({low}), "9,000 100");
    check::equal(average({low, at_baseline}, 50, 0), "none");
    check::equal(average({}), "none");
    check::equal(average({still(Kind::wind)}), "none");
    // A kWh of wind or sun, also of who takes no part; and a kWh above the baseline, whatever the status.
    check::equal(average({low, at_baseline, still(Kind::wind, Status::normal, 1)}), "none");
    check::equal(average({low, at_baseline, still(Kind::solar, Status::accident, 1)}), "none");
    for (const Status status : {Status::normal, Status::starting, Status::reduced, Status::accident}) {
        check::equal(average({low, thermal(12'500, status)}), "21,500 200");
        check::equal(average({low, thermal(12'501, status)}), "none");
    }
    // Under 45 percent the baseline of 101 MW is 11,362.5 kWh, cut.
    check::equal(average({low, thermal(11'362, Status::normal, 101)}, 45), "20,362 201");
    check::equal(average({low, thermal(11'363, Status::normal, 101)}, 45), "none");
    check::equal(average({low, at_baseline}, 45), "none");
}

// 9,000, 18,000 and 25,000 kWh of 100, 150 and 200 MW: 52,000 of 450, which is 11,555.5… of 100 MW, 17,333.3… of 150
// and 23,111.1… of 200, each cut.
void check_averaged_energies() {
    Rules rules = rules_at(50);
    rules.average = Average{{52'000}, 450};
    const Row low = thermal(9'000), middle = thermal(18'000, Status::starting, 150);
    const Row high = thermal(25'000, Status::normal, 200);
    check::equal(baseline_of(low, rules).count, 11'555, "the average of 100 MW");
    check::equal(baseline_of(middle, rules).count, 17'333, "the average of 150 MW");
    check::equal(baseline_of(high, rules).count, 23'111, "the average of 200 MW");
    const auto is = [&](Role role, const Row &row) {
        check::holds(role_of(row, rules) == role, "the role at " + text(row.metered) + " by the average");
    };
    is(Role::receiver, thermal(11'554));
    is(Role::payer, thermal(11'555));
    is(Role::payer, thermal(11'555, Status::reduced));
    is(Role::bystander, thermal(11'555, Status::accident));
    is(Role::bystander, thermal(11'554, Status::starting));
    is(Role::payer, middle);
    is(Role::payer, high);
    is(Role::payer, still(Kind::wind));
    is(Role::bystander, still(Kind::solar, Status::accident));
    check::equal(weight_of(low, rules).count, 0);
    check::equal(weight_of(thermal(11'555), rules).count, 0);
    check::equal(weight_of(middle, rules).count, 667);
    check::equal(weight_of(high, rules).count, 1'889);
    check::equal(weight_of(still(Kind::wind), rules).count, 0);
    check::equal(cap_of(high, rules).cut().count, 81'250);
    check::equal(cap_of(low, rules).cut().count, 0);
    // Down to tier 2, and below it; with an average of 9,000 kWh of 100 MW there is nothing of tier 1.
    const auto held = [](const Row &row, const Rules &by) {
        const auto [first, second] = held_back(row, by);
        return text(first) + " " + text(second);
    };
    check::equal(held(low, rules), "1,555 1,000");
    check::equal(held(thermal(11'000), rules), "555 0");
    check::equal(held(thermal(11'555), rules), "0 0");
    check::equal(held(thermal(12'000), rules), "0 0");
    Rules lower = rules;
    lower.average = Average{{18'000}, 200};
    check::equal(held(thermal(8'000), lower), "0 1,000");
    check::equal(held(thermal(9'000), lower), "0 0");
    check::equal(held(thermal(9'500), lower), "0 0");
    check::equal(held(thermal(10'500), lower), "0 0");
    // Called for 2,500 and 2,000 kWh: 945 and 1,000 are missing, at twice 200 and 400 li.
    const Calls calls{{Kwh{2'500}, Kwh{2'000}}, {Li{200}, Li{400}}};
    check::equal(penalty_of(thermal(9'000, Status::reduced), rules, calls).rounded().count, 37'800 + 80'000);
    check::equal(compensation_of(low, rules, calls).rounded().count, 31'100 + 40'000);
    check::holds(has_delivered(low, rules, calls.called, 0) && has_delivered(low, rules, calls.called, 1), "delivered");
    check::holds(!has_delivered(thermal(11'000), rules, calls.called, 1), "delivered nothing in tier 2");
    check::holds(!has_delivered(thermal(11'555), rules, calls.called, 0), "delivered nothing at all");
    check::holds(!has_delivered(low, rules, {Kwh{0}, Kwh{1}}, 0), "not called");
    check::holds(!has_delivered(thermal(9'000, Status::reduced), rules, calls.called, 0), "not to be paid");
}

void check_loads() {
    check::equal(load_of(thermal(9'000), 0, 3), "36");
    check::equal(load_of(thermal(9'000), 1, 1), "36.0");
    check::equal(load_of(thermal(19'999), 1, 1), "79.9…");
    check::equal(load_of(thermal(11'362, Status::normal, 101), 0, 3), "44.998…");
    check::equal(load_of(thermal(0, Status::normal, 0), 1, 1), "");
    check::equal(load_of({{2}, Kind::wind, 100, {5'000}, Status::normal}, 1, 1), "");
}

// A quarter under a baseline of 45 percent, by hand.
//
// Row 1 holds back 1,250 and 1,000 kWh: 250.00 + 400.00 yuan. Rows 2, 3 and 4 weigh 750, 16,250 and 5,000 kWh; row 5
// stands at its baseline. 65,000 fen by 22,000 kWh are 2,215, 48,011 and 14,772 fen, with remainders of 20,000, 8,000
// and 16,000: the two fen that are left go to rows 2 and 4. Row 6 lacks 1,000 of the 1,250 kWh that it was called for,
// which cost 400.00 yuan; nobody needs them.
struct Given {
    Row row;
    std::uint32_t called_1, called_2, compensation, weight, cap, paid, penalty, returned;
};

const std::vector<Given> quarter{
    {{{1}, Kind::thermal, 100, {9'000}, Status::normal}, 1'250, 500, 65'000, 0, 0, 0, 0, 0},
    {{{2}, Kind::thermal, 100, {12'000}, Status::normal}, 100, 0, 0, 750, 39'000, 2'216, 0, 0},
    {{{3}, Kind::thermal, 100, {20'000}, Status::normal}, 0, 0, 0, 16'250, 65'000, 48'011, 0, 0},
    {{{4}, Kind::wind, 100, {5'000}, Status::normal}, 0, 0, 0, 5'000, 32'500, 14'773, 0, 0},
    {{{5}, Kind::thermal, 101, {11'362}, Status::normal}, 0, 0, 0, 0, 36'926, 0, 0, 0},
    {{{6}, Kind::thermal, 100, {11'000}, Status::reduced}, 1'250, 0, 0, 0, 0, 0, 40'000, 40'000},
};

// With a head PT that states the terms, or with a head PS.
Statement statement(const FileForm &form) {
    Bytes bytes(form.length(quarter.size()));
    std::copy(form.mark.begin(), form.mark.end(), bytes.begin());
    set(bytes, WHEATRUDDER_HEAD_PRICE1, 200, 2);
    set(bytes, WHEATRUDDER_HEAD_PRICE2, 400, 2);
    set(bytes, WHEATRUDDER_HEAD_TOTAL, 65'000, 8);
    set(bytes, WHEATRUDDER_HEAD_ROWS, quarter.size(), 2);
    if (form == pt_form) {
        set(bytes, WHEATRUDDER_HEAD_PERCENT_PT, 45, 1);
        for (std::size_t limit = 0; limit < 4; ++limit) {
            const auto li = static_cast<std::uint64_t>(made::other_terms.limits[limit].count);
            set(bytes, WHEATRUDDER_HEAD_LIMITS_PT + 2 * limit, li, 2);
        }
    }
    set(bytes, form == pt_form ? WHEATRUDDER_HEAD_VISITS_PT : WHEATRUDDER_HEAD_VISITS_PS, 3, 4);
    for (std::size_t position = 0; position < quarter.size(); ++position) {
        const Given &is = quarter[position];
        const std::size_t line = form.length(position);
        set(bytes, line + WHEATRUDDER_LINE_ID, is.row.id.number, 2);
        set(bytes, line + WHEATRUDDER_LINE_CALLED1, is.called_1, 4);
        set(bytes, line + WHEATRUDDER_LINE_CALLED2, is.called_2, 4);
        set(bytes, line + WHEATRUDDER_LINE_COMPENSATION, is.compensation, 4);
        set(bytes, line + WHEATRUDDER_LINE_WEIGHT, is.weight, 4);
        set(bytes, line + WHEATRUDDER_LINE_CAP, is.cap, 4);
        set(bytes, line + WHEATRUDDER_LINE_PAID, is.paid, 4);
        set(bytes, line + WHEATRUDDER_LINE_PENALTY, is.penalty, 4);
        set(bytes, line + WHEATRUDDER_LINE_RETURNED, is.returned, 4);
    }
    return Statement(bytes);
}

std::variant<Explanation, Disagreement> explained(std::uint16_t id, const FileForm &form, const Rules &rules) {
    std::vector<Row> rows;
    for (const Given &is : quarter) {
        rows.push_back(is.row);
    }
    return explain(statement(form), rows, rules, {id});
}

// Whether a row's steps have this sentence, in both tongues.
void has(std::uint16_t id, const std::string &english, const std::string &chinese) {
    const auto answer = explained(id, pt_form, rules_at(45));
    if (const auto *disagreement = std::get_if<Disagreement>(&answer)) {
        check::holds(false, disagreement->check.in(Tongue::english));
    }
    const Explanation &explanation = std::get<Explanation>(answer);
    for (const Step &step : explanation.steps) {
        if (step.words.in(Tongue::english) == english) {
            return check::equal(step.words.in(Tongue::chinese), chinese);
        }
    }
    check::holds(false, "no step says: " + english + "\n" + as_text(explanation, Tongue::english));
}

void check_words() {
    for (const Given &is : quarter) {
        has(is.row.id.number,
            "For this quarter the interval file states other terms than the rules as issued (Article 64): baseline 45 "
            "percent of full load; bids from 0.150 to 0.300 yuan for each kWh in tier 1, from 0.350 to 0.650 in tier "
            "2.",
            "本时段文件载明的基准和限价与原规则不同（第六十四条）：有偿调峰基准为额定容量的 45%；报价下限至上限："
            "第一档 0.150 至 0.300 元/kWh，第二档 0.350 至 0.650 元/kWh。");
    }
    has(1,
        "This thermal unit ran at 36 percent load: 9,000 kWh. That is below the baseline of 45 percent (11,250 kWh), "
        "under which regulation is paid, so it can be paid (Article 21).",
        "该火电机组负荷率 36%，电量 9,000 kWh，低于有偿调峰基准（45%，11,250 kWh），可获补偿（第二十一条）。");
    has(1,
        "It was called for 1,250 kWh in tier 1 (45 to 40 percent load) and 500 kWh in tier 2 (below 40). Where it was "
        "called, it is paid for what it held back by the meter (Articles 26 and 27).",
        "调用：第一档（负荷率 45%–40%）1,250 kWh，第二档（40% 以下）500 kWh。在被调用的档内，按计量得出的有偿调峰电量"
        "予以补偿（第二十六、二十七条）。");
    has(1, "Tier 1: held back 1,250 kWh × 0.200 yuan (clearing price) = 250.00 yuan (Articles 27 and 28).",
        "第一档：有偿调峰电量 1,250 kWh × 出清价格 0.200 元 = 250.00 元（第二十七、二十八条）。");
    has(2,
        "This thermal unit ran at 48 percent load: 12,000 kWh. That is not below the baseline of 45 percent (11,250 "
        "kWh), under which regulation is paid, so it shares in the cost (Articles 20 and 21).",
        "该火电机组负荷率 48%，电量 12,000 kWh，不低于有偿调峰基准（45%，11,250 kWh），参与分摊（第二十、二十一条）。");
    has(2,
        "It was called for 100 kWh in tier 1 and 0 kWh in tier 2. But it did not go below the baseline of 45 percent, "
        "so it is not paid for that (Article 27).",
        "调用：第一档 100 kWh，第二档 0 kWh；但负荷率未低于有偿调峰基准（45%），不获补偿（第二十七条）。");
    has(2,
        "Thermal units that ran below the baseline of 45 percent earned 650.00 yuan in this quarter. The payers cover "
        "this together (Article 29).",
        "本时段低于有偿调峰基准（45%）的火电机组应获补偿合计 650.00 元，由各分摊方共同承担（第二十九条）。");
    has(3,
        "Weight: energy counts 1 × from 45 to 60 percent load, 2 × from 60 to 70, 3 × above 70, and not at all below "
        "45. 1 × 3,750 + 2 × 2,500 + 3 × 2,500 = 16,250 kWh (Article 29).",
        "修正后发电量：负荷率 45%–60% 部分计 1 倍，60%–70% 部分计 2 倍，70% 以上部分计 3 倍，45% 以下不计。"
        "1 × 3,750 + 2 × 2,500 + 3 × 2,500 = 16,250 kWh（第二十九条）。");
    has(5,
        "It ran exactly at the baseline of 45 percent (11,362 kWh, rounded down), so its weight is 0 and it pays no "
        "share (Article 29).",
        "电量恰为有偿调峰基准（45%，11,362 kWh，舍去不足 1 kWh 的部分），修正后发电量为 0，不需分摊（第二十九条）。");
    has(6,
        "Tier 1: called 1,250 kWh, held back by the meter 250, missing 1,000. 1,000 kWh × 2 × 0.200 yuan (clearing "
        "price) = 400.00 yuan (Article 52).",
        "第一档：调用 1,250 kWh，按计量提供 250 kWh，减少 1,000 kWh。1,000 kWh × 2 × 出清价格 0.200 元 = 400.00 元"
        "（第五十二条）。");
}

// The same figures do not fit the rules as they were issued, under which row 2 would be a receiver; and the statement
// itself says under which terms it was made.
void check_rules_count() {
    const auto failed = [](std::uint16_t id, const FileForm &form, const Rules &rules) {
        const auto answer = explained(id, form, rules);
        const auto *disagreement = std::get_if<Disagreement>(&answer);
        return disagreement == nullptr ? "none" : disagreement->check.in(Tongue::english);
    };
    const Rules issued = rules_of(interval());
    Rules other_limit = rules_at(45);
    other_limit.terms.limits[3] += Li{1};
    for (const Given &is : quarter) {
        const std::uint16_t id = is.row.id.number;
        check::equal(failed(id, ps_form, issued), "weight of row 2");
        check::equal(failed(id, pt_form, issued), "mark and terms of the statement");
        check::equal(failed(id, ps_form, rules_at(45)), "mark and terms of the statement");
        check::equal(failed(id, pt_form, rules_at(46)), "mark and terms of the statement");
        check::equal(failed(id, pt_form, other_limit), "mark and terms of the statement");
    }
}

// Numbers of the rules stand in no sentence, but for terms of the help, which are about no quarter.
void check_sentences() {
    for (std::size_t word = 0; word < words_in_all; ++word) {
        const std::string name(key(static_cast<Word>(word)));
        if (name.starts_with("term.")) {
            continue;
        }
        for (const Tongue tongue : {Tongue::english, Tongue::chinese}) {
            const std::string line(raw(static_cast<Word>(word), tongue));
            for (const char *number : {"half load", "一半", "40", "45", "50", "60", "70", "0.5", "0.25"}) {
                check::holds(line.find(number) == line.npos, name + " has a number of the rules: " + line);
            }
        }
    }
}

} // namespace

int main() {
    check_forms();
    check_lengths();
    check_rules_as_issued();
    check_rules_as_stated();
    check_terms_allowed();
    check_offers();
    check_roles();
    check_energies();
    check_other_numbers();
    check_ruling_average();
    check_averaged_energies();
    check_loads();
    check_words();
    check_rules_count();
    check_sentences();
    return check::passed("rules");
}
