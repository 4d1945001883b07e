// A folder, read: every state of a quarter, every refusal, files of every kind and name, and what changes meanwhile.
#include "check.h"
#include "reading.h"
#include "trial.h"
#include "view.h"

#include <algorithm>
#include <atomic>
#include <set>
#include <sys/socket.h>
#include <sys/syscall.h>
#include <sys/un.h>
#include <thread>

using namespace client;
using namespace trial;
using check::equal;
using check::holds;

namespace client {

std::ostream &operator<<(std::ostream &out, State state) {
    return out << raw(name_of(state), Tongue::english);
}

std::ostream &operator<<(std::ostream &out, Form form) {
    return out << raw(name_of(form), Tongue::english);
}

} // namespace client

namespace {

// Something that happens each time the core has read from a file, before it looks whether the file is still the same.
std::function<void()> after_read;

} // namespace

// Takes the place of the C library's function.
extern "C" ssize_t read_and_go_on(int file, void *bytes, size_t length) asm("read");
extern "C" ssize_t read_and_go_on(int file, void *bytes, size_t length) {
    const ssize_t held = syscall(SYS_read, file, bytes, length);
    if (after_read) {
        after_read();
    }
    return held;
}

namespace {

using ReadIn = std::shared_ptr<const Reading>;

Bytes x_interval, x_correction; // interval X at tariff 1300, and a correction of its row 3

constexpr std::uint32_t day = 9'800; // 2026-10-31
constexpr std::uint8_t nine = 9;     // 02:15–02:30

Bytes interval_of(std::uint8_t quarter = nine, std::uint32_t tariff = 1'300) {
    return with(for_slot(x_interval, day, quarter), 7, tariff, 2);
}

// The same rows under 45 percent and other limits, which its head states: row 1 holds back 1,250 and 1,000 kWh at 200
// and 400 li, 650.00 yuan, by 16,250 kWh of row 2 and 5,000 of row 3. Row 2 pays 497.06 yuan, and row 3 152.94.
Bytes stated_interval_of(std::uint8_t quarter = nine) {
    return made::stating(made::other_terms, interval_of(quarter));
}

Bytes correction_of(std::uint8_t quarter = nine) {
    return for_slot(x_correction, day, quarter);
}

std::string numbered(const char *name, std::uint32_t number) {
    return std::string(name).append(std::to_string(number));
}

std::string english(const Said &said) {
    return said.in(Tongue::english);
}

std::string chinese(const Said &said) {
    return said.in(Tongue::chinese);
}

// ---- what holds of every reading ----

// Those at fault first, what is something else last.
int rank(const File &file) {
    const bool is_of_quarter = file.slot && (file.form == Form::interval || file.form == Form::correction);
    const bool is_ours = is_of_quarter || file.form == Form::statement || file.form == Form::names;
    return file.fault == Fault::unaccounted ? (file.form == Form::unread ? 0 : 1)
           : file.fault == Fault::blemish   ? 2
           : is_of_quarter && !file.same_as ? 3
           : is_ours                        ? 4
                                            : 5;
}

void files_hold(const Reading &reading) {
    std::set<std::string> names;
    int before = 0;
    for (const File &file : reading.files) {
        holds(names.insert(file.name).second, file.name + " stands twice");
        holds(rank(file) >= before, file.name + " is out of order");
        before = rank(file);
        for (const Tongue tongue : {Tongue::english, Tongue::chinese}) {
            holds(!file.says.in(tongue).empty(), file.name + ": nothing is said");
            holds(!file.is_faulty() || (file.advice && !file.advice->in(tongue).empty()), file.name + ": no advice");
        }
        holds(file.obstacle.has_value() == (file.form == Form::unread), file.name);
        holds(file.form != Form::unknown || file.fault == Fault::unaccounted, file.name + ": unknown and harmless");
        holds(!file.same_as || reading.files.at(*file.same_as).bytes == file.bytes, file.name + ": no copy");
        holds(file.bytes.size() <= most_bytes || file.form == Form::names, file.name + ": too long");
    }
}

void places_hold(const Reading &reading, Slot slot, const std::vector<std::size_t> &places, Form form) {
    for (const std::size_t place : places) {
        const File &file = reading.files.at(place);
        holds(file.form == form && file.slot == slot, file.name + " is at the wrong place");
    }
}

void quarter_holds(const Reading &reading, Slot slot) {
    const QuarterRead &quarter = reading.at(slot);
    places_hold(reading, slot, quarter.intervals, Form::interval);
    places_hold(reading, slot, quarter.corrections, Form::correction);
    const bool is_corrected = quarter.state == State::corrected;
    const bool is_settled = is_corrected || quarter.state == State::settled;
    equal(quarter.statement.has_value(), is_settled);
    equal(quarter.before.has_value(), is_corrected);
    equal(hindrance(reading, quarter).has_value(), !is_settled);
    holds(quarter.state != State::refused || quarter.refused, "refused by nothing");
    holds(quarter.state != State::arriving || reading.arriving, "nobody looks again");
    equal(quarter.intervals.empty(), quarter.state == State::missing);
    for (const std::size_t place : quarter.named) {
        holds(reading.files.at(place).fault == Fault::unaccounted, "named, and nothing is wrong with it");
    }
    holds(is_settled || (reading.interval(quarter).empty() && reading.correction(quarter).empty()), "files of nothing");
    if (is_settled) {
        const auto again = settle(reading.interval(quarter), reading.correction(quarter));
        holds(std::ranges::equal(std::get<Statement>(again).bytes(), quarter.statement->bytes()), "not its statement");
        holds(quarter.statement->slot() == slot, "the statement of another quarter");
        equal(reading.correction(quarter).empty(), quarter.corrections.empty());
    }
    if (is_corrected) {
        const auto without = settle(reading.interval(quarter), {});
        holds(std::ranges::equal(std::get<Statement>(without).bytes(), quarter.before->bytes()), "not the one before");
    }
}

void everything_holds(const Reading &reading) {
    files_hold(reading);
    for (const auto &[of, quarters] : reading.days) {
        for (std::uint8_t quarter = 0; quarter < quarters_of_day; ++quarter) {
            quarter_holds(reading, {of, {quarter}});
        }
    }
}

ReadIn read_now(const fs::path &path) {
    const Outcome outcome = read_folder(path);
    holds(std::holds_alternative<ReadIn>(outcome), "no reading");
    const ReadIn reading = std::get<ReadIn>(outcome);
    everything_holds(*reading);
    return reading;
}

const QuarterRead &quarter_of(const ReadIn &reading, std::uint8_t quarter = nine) {
    return reading->at({{day}, {quarter}});
}

const File &file_named(const ReadIn &reading, const std::string &name) {
    const auto found = std::ranges::find(reading->files, name, &File::name);
    holds(found != reading->files.end(), name + " is not listed");
    return *found;
}

std::string gone_in(const fs::path &path, Tongue tongue) {
    const Outcome outcome = read_folder(path);
    holds(std::holds_alternative<Gone>(outcome), "it is read");
    return std::get<Gone>(outcome).why.in(tongue);
}

// Reads one pair of files.
ReadIn read_pair(const Bytes &interval, const Bytes &correction = {}) {
    const fs::path in = folder();
    put(in / "h", interval);
    if (!correction.empty()) {
        put(in / "k", correction);
    }
    return read_now(in);
}

// ---- states ----

void states() {
    equal(quarter_of(read_now(folder())).state, State::missing);
    equal(quarter_of(read_pair(interval_of())).state, State::settled);
    const ReadIn corrected = read_pair(interval_of(), correction_of());
    const QuarterRead &quarter = quarter_of(corrected);
    equal(quarter.state, State::corrected);
    equal(quarter.before->of({3})->paid.count, 25'000);
    holds(quarter.statement->of({3})->paid.count != 25'000, "the correction does nothing");
    equal(english(file_named(corrected, "h").says), "Counts.");
    equal(chinese(file_named(corrected, "k").says), "有效。");
    equal(corrected->count(Form::interval), 1u);
    equal(corrected->first_day()->number, day);
    equal(quarter_of(corrected, 10).state, State::missing);
    equal(corrected->at({{1}, {1}}).state, State::missing);
    equal(english(*hindrance(*corrected, quarter_of(corrected, 10))),
          "No interval file for this quarter yet. Nothing can be said about it.");
    equal(chinese(*hindrance(*corrected, quarter_of(corrected, 10))), "本时段文件未到，暂无结果。");
}

// A file that states its terms is an interval file like any other, and its statement says the terms.
void stated_terms() {
    const ReadIn reading = read_pair(stated_interval_of(), correction_of());
    const QuarterRead &quarter = quarter_of(reading);
    equal(quarter.state, State::corrected);
    holds(quarter.statement->terms() == made::other_terms && quarter.before->terms() == made::other_terms, "the terms");
    equal(quarter.before->of({1})->compensation.count, 65'000);
    equal(quarter.before->of({2})->paid.count, 49'706);
    equal(quarter.before->of({3})->paid.count, 15'294);
    const File &file = file_named(reading, "h");
    equal(file.form, Form::interval);
    equal(english(file.says), "Counts.");
    equal(say(name_of(file), Tongue::english), "interval file with stated terms");
    equal(say(name_of(file), Tongue::chinese), "时段文件（载明基准和限价）");
    equal(say(name_of(file_named(reading, "k")), Tongue::english), "correction");
    equal(reading->count(Form::interval), 1u);
    holds(!quarter_of(read_pair(interval_of())).statement->terms(), "a head PH states terms");
}

// A quarter that the thermal average rules, and one that it rules only without, or only with its correction.
void the_thermal_average() {
    const Slot at{{day}, {nine}};
    const Bytes still = made::interval(at, 1'300, made::rows_without_wind());
    const std::vector<made::Entry> rows = made::rows_without_wind(), of_x = made::rows_of_x();
    const ReadIn alone = read_pair(still);
    const Statement &statement = *quarter_of(alone).statement;
    holds(statement.is_averaged(), "the average rules");
    equal(statement.of({1})->net().count, 39'000);
    equal(statement.of({2})->paid.count, 39'000);
    equal(statement.of({2})->weight.count, 1'500);
    const auto is_averaged = [](const ReadIn &reading) {
        const QuarterRead &quarter = quarter_of(reading);
        return std::pair{quarter.before->is_averaged(), quarter.statement->is_averaged()};
    };
    holds(is_averaged(read_pair(still, made::correction(at, {of_x[2]}))) == std::pair{true, false}, "wind after all");
    holds(is_averaged(read_pair(still, made::correction(at, {of_x[1]}))) == std::pair{true, false}, "above half load");
    holds(is_averaged(read_pair(interval_of(), made::correction(at, {rows[1], rows[2]}))) == std::pair{false, true},
          "no wind after all");
    const ReadIn stated =
        read_pair(made::stating(made::other_terms, made::interval(at, 1'300, made::rows_without_wind(11'250))));
    holds(quarter_of(stated).statement->is_averaged() && quarter_of(stated).statement->terms() == made::other_terms,
          "the average rules under stated terms");
    holds(!quarter_of(read_pair(made::stating(made::other_terms, still))).statement->is_averaged(),
          "row 2 is above 45 percent");
}

// The control centre has sent the file again with other terms: nobody chooses, and both terms are told.
void two_terms() {
    const fs::path in = folder();
    put(in / "a", interval_of());
    put(in / "b", stated_interval_of());
    ReadIn reading = read_now(in);
    equal(quarter_of(reading).state, State::two_intervals);
    equal(
        english(*hindrance(*reading, quarter_of(reading))),
        "No statement: a and b are both for this quarter and differ. Take away the wrong one. Their terms differ "
        "(Article 64). a: baseline 50 percent of full load; bids from 0.100 to 0.320 yuan for each kWh in tier 1, from "
        "0.320 to 0.750 in tier 2. b: baseline 45 percent of full load; bids from 0.150 to 0.300 yuan for each kWh in "
        "tier 1, from 0.350 to 0.650 in tier 2.");
    equal(
        chinese(*hindrance(*reading, quarter_of(reading))),
        "无结算单：a 与 b 同属本时段但内容不同，请移走错误的文件。两者的基准和限价不同（第六十四条）。"
        "a：有偿调峰基准为额定容量的 50%；报价下限至上限：第一档 0.100 至 0.320 元/kWh，第二档 0.320 至 0.750 元/kWh。"
        "b：有偿调峰基准为额定容量的 45%；报价下限至上限：第一档 0.150 至 0.300 元/kWh，第二档 0.350 至 0.650 "
        "元/kWh。");
    // The same terms, terms that are out of range, a head that is cut: nothing is said of them.
    const std::string plain = "No statement: a and b are both for this quarter and differ. Take away the wrong one.";
    for (const Bytes &other : {made::stating(issued_terms, interval_of()), with(stated_interval_of(), 15, 40, 1),
                               cut(stated_interval_of(), 20)}) {
        put(in / "b", other);
        reading = read_now(in);
        equal(english(*hindrance(*reading, quarter_of(reading))), plain);
    }
    // Once the old one is taken away the new one counts.
    put(in / "b", stated_interval_of());
    fs::remove(in / "a");
    equal(quarter_of(read_now(in)).statement->of({3})->paid.count, 15'294);
}

void two_interval_files() {
    const fs::path in = folder();
    put(in / "a", interval_of());
    put(in / "b", interval_of(nine, 1'200));
    put(in / "k", correction_of());
    const ReadIn reading = read_now(in);
    equal(quarter_of(reading).state, State::two_intervals);
    equal(english(*hindrance(*reading, quarter_of(reading))),
          "No statement: a and b are both for this quarter and differ. Take away the wrong one.");
    equal(chinese(*hindrance(*reading, quarter_of(reading))),
          "无结算单：a 与 b 同属本时段但内容不同，请移走错误的文件。");
    equal(english(file_named(reading, "a").says), "For the same quarter as b, and they differ: none of them counts.");
    equal(english(file_named(reading, "k").says), "Not used: its quarter has no statement because of a, b.");
    holds(!file_named(reading, "k").is_faulty() && file_named(reading, "b").is_faulty(), "the wrong one is blamed");
    // The damaged one may be the newer.
    put(in / "b", with(interval_of(), 15, 0, 1));
    equal(quarter_of(read_now(in)).state, State::two_intervals);
    set_age(in / "b", 0);
    equal(quarter_of(read_now(in)).state, State::two_intervals);
    for (const std::uint32_t tariff : {1'000u, 1'001u, 1'002u}) {
        put(in / numbered("c", tariff), interval_of(nine, tariff));
    }
    const ReadIn many = read_now(in);
    equal(english(*hindrance(*many, quarter_of(many))),
          "No statement: a, b, c1000 and 1 more and c1002 are all for this "
          "quarter and differ. Take away the wrong ones.");
}

void two_corrections() {
    const fs::path in = folder();
    put(in / "h", interval_of());
    put(in / "k", correction_of());
    put(in / "l", with(correction_of(), 9 + 7, 7'000, 4));
    const ReadIn reading = read_now(in);
    equal(quarter_of(reading).state, State::two_corrections);
    equal(english(*hindrance(*reading, quarter_of(reading))),
          "No statement: k and l are both for this quarter and differ. Take away the wrong one.");
    holds(!file_named(reading, "h").is_faulty(), "the interval file is blamed");
}

void equal_copies() {
    const fs::path in = folder();
    fs::create_directory(in / "0");
    put(in / "0" / "copy", interval_of());
    put(in / "a", interval_of());
    put(in / "b", interval_of());
    put(in / "k", correction_of());
    put(in / "l", correction_of());
    const ReadIn reading = read_now(in);
    equal(quarter_of(reading).state, State::corrected);
    equal(quarter_of(reading).intervals.size(), 3u);
    equal(english(file_named(reading, "b").says), "The same bytes as 0/copy; counted once.");
    equal(chinese(file_named(reading, "l").says), "与 k 内容相同，只计一次。");
    holds(!file_named(reading, "b").is_faulty() && file_named(reading, "b").same_as, "no copy");
    equal(reading->files[quarter_of(reading).intervals[0]].name, "0/copy");
    equal(reading->subfolders.size(), 1u);
    // What is cut at the limit is not known to be equal.
    Bytes longer = interval_of();
    longer.resize(most_bytes);
    put(in / "a", longer);
    put(in / "b", longer);
    fs::remove(in / "0" / "copy");
    equal(quarter_of(read_now(in)).state, State::two_intervals);
}

void corrections_left_over() {
    const fs::path in = folder();
    put(in / "k", correction_of());
    put(in / "l", with(correction_of(), 9 + 7, 7'000, 4));
    put(in / "m", correction_of());
    put(in / "h", interval_of(10));
    const ReadIn reading = read_now(in);
    equal(quarter_of(reading).state, State::missing);
    equal(english(file_named(reading, "k").says), "There is no interval file for this quarter yet.");
    holds(file_named(reading, "k").is_faulty() && file_named(reading, "l").is_faulty() &&
              !file_named(reading, "m").is_faulty(),
          "");
    equal(arrived(*reading, {day}).unaccounted, 2u);
    equal(arrived(*reading, {day}).missing, 95u);
    equal(arrived(*reading, {day}).first_missing->number, 0u);
}

void arriving() {
    const fs::path in = folder();
    put(in / "h", interval_of());
    put_fresh(in / "k", with(correction_of(), 9, 0, 1));
    ReadIn reading = read_now(in);
    equal(quarter_of(reading).state, State::arriving);
    holds(reading->arriving && quarter_of(reading).refused, "nothing is awaited");
    equal(english(*hindrance(*reading, quarter_of(reading))),
          "A file is still arriving. It is looked at again in two seconds.");
    for (const std::int64_t age : {3LL, -3'600LL, -13'000'000'000LL, 4'000'000'000LL}) {
        set_age(in / "k", age);
        reading = read_now(in);
        check::equal(quarter_of(reading).state, State::refused, std::to_string(age));
        holds(!reading->arriving, "something is awaited");
    }
    // A whole file counts at once.
    put_fresh(in / "k", correction_of());
    equal(quarter_of(read_now(in)).state, State::corrected);
    // An entry fits no row, since the interval file is half there.
    put(in / "k", correction_of());
    Bytes two_rows = with(interval_of(), 13, 2, 2);
    two_rows.resize(15 + 2 * row_length);
    put_fresh(in / "h", two_rows);
    equal(quarter_of(read_now(in)).state, State::arriving);
    set_age(in / "h", 5);
    equal(quarter_of(read_now(in)).state, State::refused);
}

// ---- refusals ----

struct Due {
    Refusal refusal;
    const char *file;
    std::string english, chinese;
};

void is_refused(const Bytes &interval, const Bytes &correction, const Due &due) {
    const ReadIn reading = read_pair(interval, correction);
    const QuarterRead &quarter = quarter_of(reading);
    equal(quarter.state, State::refused);
    equal(quarter.refused->refusal.number, due.refusal.number);
    equal(quarter.refused->refusal.place, due.refusal.place);
    const File &file = reading->files.at(quarter.refused->file);
    equal(file.name, due.file);
    equal(english(file.says), due.english);
    equal(chinese(file.says), due.chinese);
    holds(file.is_faulty() && !quarter.statement && !quarter.before, "a figure is left");
    const bool is_correction = file.name == "k";
    equal(english(*hindrance(*reading, quarter)),
          is_correction
              ? "No statement: the correction is refused. The figure without it is not valid either. " + due.english
              : "No statement: h is refused. " + due.english);
    equal(chinese(*hindrance(*reading, quarter)),
          is_correction ? "无结算单：更正文件未通过检查；不含更正的数值同样无效。" + due.chinese
                        : "无结算单：h 未通过检查。" + due.chinese);
    if (!correction.empty()) {
        const File &other = file_named(reading, is_correction ? "h" : "k");
        equal(english(other.says), std::string("Not used: its quarter has no statement because of ") + due.file + ".");
    }
}

void refusals_of_interval_files() {
    const Bytes good = interval_of();
    const Bytes row_2 = with(good, 15 + 21 + 2, 753, 2);
    Bytes longer = good;
    longer.push_back(0);
    is_refused({good.begin(), good.begin() + 14}, correction_of(),
               {{1, 0},
                "h",
                "Check 1: The file is shorter than its head (15 bytes, or 24 if it begins with PG).",
                "第 1 项检查：文件不足文件头长度（15 字节，以 PG 开头的为 24 字节）。"});
    is_refused(with(good, 7, 0, 2), correction_of(),
               {{3, 0},
                "h",
                "Check 3: Day, quarter, tariff, need or number of rows is out of range.",
                "第 3 项检查：文件头的日期、时段、电价、需求或行数越界。"});
    is_refused(longer, {},
               {{4, 0},
                "h",
                "Check 4: The length does not fit the number of rows: bytes were lost or added.",
                "第 4 项检查：文件长度与行数不符，字节丢失或多余。"});
    is_refused(with(row_2, 15 + 21, 'Q', 1), {},
               {{5, 2},
                "h",
                "Check 5: Entry 2 (id 753) does not begin with PR: damaged.",
                "第 5 项检查：第 2 条（编号 753）不以 PR 开头，文件损坏。"});
    is_refused(with(row_2, 15 + 21 + 5, 2'001, 2), {},
               {{6, 2},
                "h",
                "Check 6: A figure of entry 2 (id 753) is out of range.",
                "第 6 项检查：第 2 条（编号 753）的数值越界。"});
    is_refused(with(good, 15 + 21 + 2, 1, 2), correction_of(),
               {{7, 2},
                "h",
                "Check 7: The id of entry 2 (id 1) is not above the one before.",
                "第 7 项检查：第 2 条（编号 1）的编号不大于上一条。"});
}

// The same checks of a file that states its terms, whose rows begin at byte 24; and that of the terms.
void refusals_of_stated_terms() {
    const Bytes good = stated_interval_of();
    const Bytes row_2 = with(good, 24 + 21 + 2, 753, 2);
    Bytes longer = good;
    longer.push_back(0);
    const Due too_short{{1, 0},
                        "h",
                        "Check 1: The file is shorter than its head (15 bytes, or 24 if it begins with PG).",
                        "第 1 项检查：文件不足文件头长度（15 字节，以 PG 开头的为 24 字节）。"};
    is_refused(cut(good, 14), correction_of(), too_short);
    is_refused(cut(good, 15), {}, too_short);
    is_refused(cut(good, 23), correction_of(), too_short);
    const Due out_of_range{{3, 0},
                           "h",
                           "Check 3: Day, quarter, tariff, need or number of rows is out of range.",
                           "第 3 项检查：文件头的日期、时段、电价、需求或行数越界。"};
    is_refused(with(good, 7, 0, 2), correction_of(), out_of_range);
    is_refused(with(with(good, 7, 0, 2), 15, 40, 1), {}, out_of_range); // before the terms
    const Due terms{
        {14, 0},
        "h",
        "Check 14: The terms that the head states are not allowed: the baseline or a limit of bids is out of "
        "range, or the limits do not rise.",
        "第 14 项检查：文件头载明的有偿调峰基准或报价上下限越界，或各限值未依次递增。"};
    is_refused(with(good, 15, 40, 1), correction_of(), terms);
    is_refused(with(good, 15, 51, 1), {}, terms);
    is_refused(with(good, 16, 0, 2), {}, terms);
    is_refused(with(good, 16, 300, 2), {}, terms);
    is_refused(with(good, 18, 351, 2), {}, terms);
    is_refused(with(good, 20, 650, 2), {}, terms);
    is_refused(with(good, 22, 1'001, 2), {}, terms);
    is_refused(with(longer, 15, 40, 1), {}, terms); // before the length
    is_refused(longer, {},
               {{4, 0},
                "h",
                "Check 4: The length does not fit the number of rows: bytes were lost or added.",
                "第 4 项检查：文件长度与行数不符，字节丢失或多余。"});
    is_refused(with(row_2, 24 + 21, 'Q', 1), {},
               {{5, 2},
                "h",
                "Check 5: Entry 2 (id 753) does not begin with PR: damaged.",
                "第 5 项检查：第 2 条（编号 753）不以 PR 开头，文件损坏。"});
    const Due row_1{{6, 1},
                    "h",
                    "Check 6: A figure of entry 1 (id 1) is out of range.",
                    "第 6 项检查：第 1 条（编号 1）的数值越界。"};
    is_refused(with(good, 24 + 13, 11'251, 4), {}, row_1); // its minimum
    is_refused(with(good, 24 + 17, 149, 2), {}, row_1);    // its bids
    is_refused(with(good, 24 + 19, 651, 2), {}, row_1);
    is_refused(with(good, 24 + 21 + 2, 1, 2), correction_of(),
               {{7, 2},
                "h",
                "Check 7: The id of entry 2 (id 1) is not above the one before.",
                "第 7 项检查：第 2 条（编号 1）的编号不大于上一条。"});
    // A correction's row, held to the terms of the interval file: a minimum that the rules as issued would allow.
    Bytes offering = made::correction({{day}, {nine}}, {made::rows_of_x()[0]});
    set(offering, 9 + 13, 11'251, 4);
    is_refused(good, offering,
               {{8, 1},
                "k",
                "Check 8: The correction itself is faulty, at entry 1 (id 1).",
                "第 8 项检查：更正文件第 1 条（编号 1）有误。"});
    is_refused(
        good, with(correction_of(), 9 + 2, 753, 2),
        {{10, 1},
         "k",
         "Check 10: Entry 1 (id 753) of the correction names no row, or changes more than meter reading and status.",
         "第 10 项检查：更正文件第 1 条（编号 753）无对应机组，或改动了电量和状态以外的内容。"});
    equal(english(*file_named(read_pair(with(good, 15, 40, 1), {}), "h").advice), "Ask the sender.");
}

void refusals_of_corrections() {
    const Bytes good = correction_of();
    Bytes longer = good;
    longer.push_back(0);
    const Due at_head{{8, 0},
                      "k",
                      "Check 8: The correction itself is faulty, at its head or length.",
                      "第 8 项检查：更正文件的文件头或长度有误。"};
    is_refused(interval_of(), longer, at_head);
    is_refused(interval_of(), {good.begin(), good.begin() + 7}, at_head);
    is_refused(interval_of(), with(good, 7, 0, 2), at_head);
    is_refused(interval_of(), with(good, 9 + 11, 9, 1),
               {{8, 1},
                "k",
                "Check 8: The correction itself is faulty, at entry 1 (id 3).",
                "第 8 项检查：更正文件第 1 条（编号 3）有误。"});
    is_refused(
        interval_of(), with(good, 9 + 2, 753, 2),
        {{10, 1},
         "k",
         "Check 10: Entry 1 (id 753) of the correction names no row, or changes more than meter reading and status.",
         "第 10 项检查：更正文件第 1 条（编号 753）无对应机组，或改动了电量和状态以外的内容。"});
}

// Numbers that no folder brings about have their words too.
void words_of_every_number() {
    const auto words = [](unsigned number, unsigned place, std::optional<RowId> id = {}) {
        return refusal_words({{number, place}, 0, id});
    };
    equal(english(words(2, 0)), "Check 2: It begins with neither PH nor PG: no interval file.");
    equal(chinese(words(2, 0)), "第 2 项检查：文件不以 PH 或 PG 开头，不是时段文件。");
    equal(english(words(9, 0)), "Check 9: The correction is for another day or quarter.");
    equal(chinese(words(9, 0)), "第 9 项检查：更正文件的日期或时段不符。");
    equal(english(words(11, 0)), "Check 11: The client lent too short a buffer: our fault.");
    equal(chinese(words(11, 0)), "第 11 项检查：客户端缓冲区过短，属程序缺陷。");
    equal(english(words(5, 256)), "Check 5: Entry 256 does not begin with PR: damaged.");
    equal(chinese(words(5, 256)), "第 5 项检查：第 256 条不以 PR 开头，文件损坏。");
    for (const unsigned number : {0u, 12u, 13u, 15u, 23u, 4'000'000'000u}) {
        const std::string text = std::to_string(number);
        equal(english(words(number, 2)), "Refused by check " + text + ", entry 2; this version has no words for it.");
        equal(chinese(words(number, 2)), "第 " + text + " 项检查未通过（第 2 条），本版本暂无说明。");
    }
    std::set<std::string> said;
    for (const unsigned number : {1u, 2u, 3u, 4u, 5u, 6u, 7u, 8u, 9u, 10u, 11u, 14u}) {
        holds(said.insert(english(words(number, 3, RowId{753}))).second, "said before");
        holds(!english(refusal_advice({number, 3})).empty() && !chinese(refusal_advice({number, 3})).empty(), "advice");
    }
    equal(english(refusal_advice({10, 1})), "Ask the control centre.");
    equal(chinese(refusal_advice({10, 1})), "请联系调控中心。");
    equal(chinese(refusal_advice({14, 0})), "请与发送方核对。");
    equal(english(refusal_advice({12, 1})), "Ask for a newer version of this program.");
}

// ---- files of other kinds ----

void files_of_no_quarter() {
    const fs::path in = folder();
    put(in / "cut", Bytes{'P', 'H', 0, 0, 0, 0});
    put(in / "cut-k", Bytes{'P', 'K'});
    put(in / "empty", {});
    put(in / "far", for_slot(x_interval, 36'525, 0));
    put(in / "far-k", for_slot(x_correction, 0, 96));
    put(in / "h", interval_of());
    put(in / "other", bytes_of("a text"));
    put(in / "p", bytes_of("P"));
    put(in / "far-g", for_slot(stated_interval_of(), 36'525, 0));
    put(in / "cut-g", Bytes{'P', 'G', 0, 0, 0, 0});
    for (const char mark : {'U', 'W'}) {
        put(in / std::string(1, mark), with(interval_of(), 1, static_cast<std::uint8_t>(mark), 1));
    }
    const ReadIn reading = read_now(in);
    equal(reading->days.size(), 1u);
    equal(english(file_named(reading, "cut").says),
          "It names no day and quarter. Check 1: The file is shorter than its head (15 bytes, or 24 if it begins with "
          "PG).");
    equal(english(file_named(reading, "cut-g").says), english(file_named(reading, "cut").says));
    equal(english(file_named(reading, "cut-k").says),
          "It names no day and quarter. Check 8: The correction itself is faulty, at its head or length.");
    equal(english(file_named(reading, "far").says),
          "It names no day and quarter. Check 3: Day, quarter, tariff, need or number of rows is out of range.");
    equal(english(file_named(reading, "far-g").says), english(file_named(reading, "far").says));
    equal(chinese(file_named(reading, "far-k").says),
          "文件未指明有效的日期和时段。第 8 项检查：更正文件的文件头或长度有误。");
    equal(english(file_named(reading, "empty").says),
          "Empty. It may be an interval file or a correction that did not arrive.");
    equal(file_named(reading, "empty").form, Form::empty);
    equal(reading->count(Form::coming), 2u);
    equal(english(file_named(reading, "W").says), "This version does not know this form.");
    equal(english(file_named(reading, "other").says),
          "Nobody knows what this is. It may be a correction that was damaged.");
    equal(file_named(reading, "p").form, Form::unknown);
    equal(arrived(*reading, {day}).unaccounted, 11u);
    equal(arrived(*reading, {day}).settled, 1u);
    holds(!reading->arriving, "something is awaited");
    set_age(in / "empty", 0);
    holds(read_now(in)->arriving, "an empty file may be filled");
    // An empty file is no correction: its quarter is settled, and the day is not ready.
    equal(quarter_of(reading).state, State::settled);
}

// ---- names and kinds of entries ----

void names_of_any_bytes() {
    const fs::path in = folder();
    const std::vector<std::string> names{"\xff",
                                         "a\nb",
                                         "x\u202elavretni.y",
                                         std::string(255, 'n'),
                                         "-",
                                         "{0}{1}",
                                         "'",
                                         std::string(85, '\xe7') + "\xac",
                                         "\\xff",
                                         "=1+1",
                                         " ",
                                         "a\u200b",
                                         "..."};
    std::uint8_t quarter = 0;
    for (const std::string &name : names) {
        put(in / name, interval_of(quarter++));
    }
    const ReadIn reading = read_now(in);
    equal(reading->files.size(), names.size());
    equal(arrived(*reading, {day}).settled, names.size());
    equal(file_named(reading, "\\xff").slot->quarter.number, 0u);
    equal(file_named(reading, "\\\\xff").slot->quarter.number, 8u);
    file_named(reading, "a\\nb");
    file_named(reading, "x\\u{202e}lavretni.y");
    // Names stand in sentences, and their own holes stay open.
    put(in / "\xfe", interval_of(5, 1'200));
    const ReadIn two = read_now(in);
    equal(english(*hindrance(*two, quarter_of(two, 5))),
          "No statement: {0}{1} and \\xfe are both for this quarter and differ. Take away the wrong one.");
    holds(!has_changed(*two, Day{day}), "names change");
}

void make_socket(const fs::path &path) {
    sockaddr_un address{};
    address.sun_family = AF_UNIX;
    path.native().copy(address.sun_path, sizeof address.sun_path - 1);
    const int made = socket(AF_UNIX, SOCK_STREAM, 0);
    holds(bind(made, reinterpret_cast<const sockaddr *>(&address), sizeof address) == 0, "no socket");
    close(made);
}

void what_is_no_plain_file() {
    const fs::path in = folder();
    put(in / "h", interval_of());
    fs::create_symlink("h", in / "link");
    fs::create_symlink("nowhere", in / "dangling");
    fs::create_directory_symlink("/", in / "all");
    fs::create_directories(in / "sub" / "inner");
    put(in / "sub" / "inner" / "k", correction_of());
    mkfifo((in / "pipe").c_str(), 0644);
    make_socket(in / "socket");
    const bool has_device = mknod((in / "device").c_str(), S_IFCHR | 0644, 0x0501) == 0;
    const ReadIn reading = read_now(in);
    equal(quarter_of(reading).state, State::settled);
    const auto said = [&](const char *name) { return english(file_named(reading, name).says); };
    for (const char *link : {"link", "dangling", "all"}) {
        equal(said(link), "Not read: a link. A correction may be missed.");
    }
    equal(said("pipe"), "Not read: a pipe. A correction may be missed.");
    equal(said("socket"), "Not read: a socket. A correction may be missed.");
    equal(said("sub/inner"), "Not read: a folder within a subfolder. A correction may be missed.");
    equal(chinese(file_named(reading, "link").says), "未读取：链接。可能遗漏更正文件。");
    equal(chinese(file_named(reading, "pipe").says), "未读取：管道。可能遗漏更正文件。");
    equal(arrived(*reading, {day}).unaccounted, has_device ? 7u : 6u);
    if (has_device) {
        equal(said("device"), "Not read: a device. A correction may be missed.");
    }
    holds(!has_changed(*reading, Day{day}), "nothing changed");
    // Another thing of the same name.
    fs::remove(in / "pipe");
    holds(!std::holds_alternative<ReadIn>(Outcome(Stopped{})) && has_changed(*reading, {}), "a pipe went");
    put(in / "pipe", correction_of());
    holds(has_changed(*reading, {}), "a file came in its place");
    equal(quarter_of(read_now(in)).state, State::corrected);
}

// A pipe, or a link, is put in the place of a file after the folder was listed.
void swapped_while_read() {
    const fs::path in = folder();
    put(in / "a", interval_of(1));
    put(in / "b", interval_of(2));
    put(in / "c", interval_of(3));
    const fs::path secret = folder() / "secret";
    put(secret, interval_of(3));
    const Outcome outcome = read_folder(in, {}, [&](std::size_t read, std::size_t) {
        if (read == 1) {
            fs::remove(in / "b");
            mkfifo((in / "b").c_str(), 0644);
            fs::remove(in / "c");
            fs::create_symlink(secret, in / "c");
        }
    });
    const ReadIn reading = std::get<ReadIn>(outcome);
    everything_holds(*reading);
    equal(arrived(*reading, {day}).settled, 1u);
    equal(file_named(reading, "b").form, Form::unread);
    equal(english(file_named(reading, "c").says), "Not read: a link. A correction may be missed.");
}

// ---- permissions ----

// As somebody who is not the administrator, who may read everything.
template <class Work>
void as_nobody(Work work) {
    const bool is_root = geteuid() == 0;
    holds(!is_root || seteuid(65'534) == 0, "seteuid");
    work();
    holds(!is_root || seteuid(0) == 0, "seteuid");
}

void without_permission() {
    const fs::path in = folder();
    put(in / "h", interval_of());
    put(in / "k", correction_of());
    fs::create_directory(in / "closed");
    put(in / "closed" / "i", interval_of(10));
    chmod((in / "k").c_str(), 0);
    chmod((in / "closed").c_str(), 0);
    ReadIn reading;
    as_nobody([&] {
        reading = read_now(in);
        equal(english(file_named(reading, "k").says), "Not read: no permission. A correction may be missed.");
        equal(chinese(file_named(reading, "closed").says), "未读取：没有权限。可能遗漏更正文件。");
        equal(english(*file_named(reading, "k").advice), "Make it readable.");
        equal(arrived(*reading, {day}).unaccounted, 2u);
        equal(reading->subfolders.size(), 0u);
        holds(!has_changed(*reading, Day{day}), "nothing changed");
    });
    chmod((in / "k").c_str(), 0644);
    as_nobody([&] { holds(has_changed(*reading, {}), "it can be read now"); });
    chmod((in / "k").c_str(), 0);
    chmod((in / "closed").c_str(), 0755);
    as_nobody([&] { holds(has_changed(*reading, {}), "a subfolder can be listed now"); });
    chmod(in.c_str(), 0);
    as_nobody([&] {
        equal(gone_in(in, Tongue::english),
              "The folder cannot be read (no permission). No figures are shown, since none can be checked.");
        holds(has_changed(*reading, {}), "the folder is closed");
    });
    chmod(in.c_str(), 0444); // names can be listed, and nothing else
    as_nobody([&] { gone_in(in, Tongue::english); });
    chmod(in.c_str(), 0755);
}

// ---- the folder as a whole ----

void folders_that_are_none() {
    const fs::path in = folder();
    equal(gone_in(in / "nowhere", Tongue::english),
          "The folder cannot be read (it is not there). No figures are shown, since none can be checked.");
    equal(gone_in(in / "nowhere", Tongue::chinese), "无法读取文件夹（不存在）。数据无法核对，故不显示任何数值。");
    put(in / "h", interval_of());
    equal(gone_in(in / "h", Tongue::english),
          "The folder cannot be read (it is no folder). No figures are shown, since none can be checked.");
    gone_in("", Tongue::english);
    gone_in(std::string(5'000, 'x'), Tongue::english);
    // A folder may be chosen by a link.
    fs::create_directory_symlink(in, root() / "chosen");
    equal(quarter_of(read_now(root() / "chosen")).state, State::settled);
}

void gone_while_read() {
    for (const bool is_replaced : {false, true}) {
        const fs::path in = folder();
        put(in / "a", interval_of(1));
        put(in / "b", interval_of(2));
        const Outcome outcome = read_folder(in, {}, [&](std::size_t read, std::size_t) {
            if (read == 1) {
                fs::rename(in, in.native() + "-away");
                if (is_replaced) {
                    fs::create_directory(in);
                }
            }
        });
        holds(std::holds_alternative<Gone>(outcome), "figures of a folder that is not there");
    }
    const fs::path in = folder();
    put(in / "a", interval_of(1));
    put(in / "b", interval_of(2));
    const Outcome outcome = read_folder(in, {}, [&](std::size_t, std::size_t) { fs::remove_all(in); });
    holds(std::holds_alternative<Gone>(outcome), "figures of a folder that was removed");
}

// A file comes, another gets its last name, while others are read.
void files_come_and_go() {
    const fs::path in = folder();
    put(in / "a", interval_of(1));
    put(in / "b.part", interval_of(2));
    put(in / "z", interval_of(4));
    const Outcome outcome = read_folder(in, {}, [&](std::size_t read, std::size_t) {
        if (read == 1 && fs::exists(in / "b.part")) {
            fs::rename(in / "b.part", in / "b");
            put(in / "0", interval_of(3));
        }
    });
    const ReadIn reading = std::get<ReadIn>(outcome);
    everything_holds(*reading);
    equal(reading->files.size(), 4u);
    equal(arrived(*reading, {day}).settled, 4u);
    holds(!reading->arriving && !has_changed(*reading, {}), "it is not what lies there");
    // One that never comes to rest is read again.
    std::uint32_t made = 0;
    const Outcome restless = read_folder(in, {}, [&](std::size_t read, std::size_t of) {
        if (read == of) {
            put(in / numbered("more", ++made), interval_of(50));
        }
    });
    holds(std::get<ReadIn>(restless)->arriving, "nobody looks again");
    holds(!arrived(*std::get<ReadIn>(restless), {day}).is_ready(), "ready, and a file may be missing");
    holds(english(readiness(*std::get<ReadIn>(restless), {day})).find("came or went") != std::string::npos, "not said");
}

void whatever_is_thrown() {
    const fs::path in = folder();
    put(in / "a", interval_of(1));
    const auto told = [&](const Progress &progress) {
        return english(std::get<Gone>(read_folder(in, {}, progress)).why);
    };
    equal(told([](std::size_t, std::size_t) { throw std::bad_alloc(); }),
          "There is not enough memory to read the folder. No figures are shown, since none can be checked.");
    equal(
        told([](std::size_t, std::size_t) { throw std::runtime_error("a\nb"); }),
        "The folder cannot be read (a fault of this program: a\\nb). No figures are shown, since none can be checked.");
    holds(told([](std::size_t, std::size_t) { throw 7; }).starts_with("A fault of this program"), "thrown");
}

void stopping_and_progress() {
    const fs::path in = folder();
    for (std::uint8_t quarter = 0; quarter < 50; ++quarter) {
        put(in / std::to_string(quarter), interval_of(quarter));
    }
    std::size_t calls = 0;
    read_folder(in, {}, [&](std::size_t read, std::size_t of) {
        equal(read, ++calls);
        equal(of, 50u);
    });
    equal(calls, 50u);
    std::stop_source source;
    calls = 0;
    const Outcome outcome = read_folder(in, source.get_token(), [&](std::size_t read, std::size_t) {
        ++calls;
        if (read == 20) {
            source.request_stop();
        }
    });
    holds(std::holds_alternative<Stopped>(outcome), "it was not stopped");
    equal(calls, 20u);
    holds(std::holds_alternative<Stopped>(read_folder(in, source.get_token())), "it began");
    std::stop_source late;
    const Outcome last = read_folder(in, late.get_token(), [&](std::size_t read, std::size_t of) {
        if (read == of) {
            late.request_stop();
        }
    });
    holds(std::holds_alternative<Stopped>(last), "it was not stopped before settling");
}

void a_file_of_a_gigabyte() {
    const fs::path in = folder();
    put(in / "h", interval_of());
    fs::resize_file(in / "h", 1'000'000'000);
    set_age(in / "h", 60);
    put(in / "zeros", {});
    fs::resize_file(in / "zeros", 1'000'000'000);
    const ReadIn reading = read_now(in);
    equal(quarter_of(reading).state, State::refused);
    equal(quarter_of(reading).refused->refusal.number, 4u);
    for (const char *name : {"h", "zeros"}) {
        equal(file_named(reading, name).bytes.size(), most_bytes); // and not a billion
    }
    holds(!file_named(reading, "h").whole && file_named(reading, "h").steady, "whole");
}

// ---- what changes ----

// Writes other bytes into the same file and puts its times back.
void write_over(const fs::path &file, const Bytes &bytes) {
    struct stat about {};
    stat(file.c_str(), &about);
    const int out = open(file.c_str(), O_WRONLY | O_CLOEXEC);
    const auto length = static_cast<ssize_t>(bytes.size());
    holds(write(out, bytes.data(), bytes.size()) == length && ftruncate(out, length) == 0, "write");
    const timespec times[2] = {about.st_atim, about.st_mtim};
    futimens(out, times);
    close(out);
}

void replace_by_rename(const fs::path &file, const Bytes &bytes) {
    struct stat about {};
    stat(file.c_str(), &about);
    const fs::path other = file.parent_path().parent_path() / "to be renamed";
    put(other, bytes);
    const timespec times[2] = {about.st_atim, about.st_mtim};
    utimensat(AT_FDCWD, other.c_str(), times, 0);
    fs::rename(other, file);
}

void changes_are_seen() {
    for (const std::optional<Day> shown_day : {std::optional(Day{day}), std::optional<Day>(), std::optional(Day{1})}) {
        const fs::path in = folder();
        fs::create_directory(in / "sub");
        put(in / "sub" / "h", interval_of());
        const auto sees = [&](const char *what, const auto &change) {
            // Once without haste, so that stamps alone have to tell.
            std::this_thread::sleep_for(shown_day == Day{1} ? 3 * ticking / 2 : std::chrono::milliseconds(0));
            const ReadIn reading = read_now(in);
            holds(!has_changed(*reading, shown_day), std::string("before: ") + what);
            change();
            holds(has_changed(*reading, shown_day), what);
            holds(!same_files(*reading, *read_now(in)), std::string("same files: ") + what);
        };
        sees("written over", [&] { write_over(in / "sub" / "h", interval_of(nine, 1'200)); });
        sees("replaced", [&] { replace_by_rename(in / "sub" / "h", interval_of(nine, 1'100)); });
        sees("replaced again", [&] { replace_by_rename(in / "sub" / "h", interval_of(nine, 1'000)); });
        sees("a correction", [&] { put(in / "k", correction_of()); });
        sees("its name", [&] { fs::rename(in / "k", in / "l"); });
        sees("its place", [&] { fs::rename(in / "l", in / "sub" / "l"); });
        sees("longer", [&] { fs::resize_file(in / "sub" / "l", 31); });
        sees("gone", [&] { fs::remove(in / "sub" / "l"); });
        sees("a link", [&] {
            fs::rename(in / "sub" / "h", in / "sub" / "g");
            fs::create_symlink("g", in / "sub" / "h");
        });
        const ReadIn last = read_now(in);
        fs::rename(in, in.native() + "-away");
        holds(has_changed(*last, shown_day), "the folder went");
    }
}

// Folders of a few files, one turned into the other: by writing over, renaming, adding and taking away.
using Content = std::map<std::string, Bytes>;

Content draw_content(Drawer &drawer, const std::vector<Bytes> &pool) {
    Content content;
    for (const char *name : {"a", "b", "c", "d"}) {
        if (drawer.below(3) > 0) {
            content[name] = pool[drawer.below(static_cast<std::uint32_t>(pool.size()))];
        }
    }
    return content;
}

void fill(const fs::path &in, const Content &content) {
    for (const auto &[name, bytes] : content) {
        put(in / name, bytes);
    }
}

void turn(Drawer &drawer, const fs::path &in, const Content &from, const Content &into) {
    for (const auto &[name, bytes] : from) {
        if (!into.contains(name)) {
            fs::remove(in / name);
        }
    }
    for (const auto &[name, bytes] : into) {
        const auto before = from.find(name);
        if (before == from.end()) {
            put(in / name, bytes);
        } else if (before->second != bytes) {
            drawer.below(2) == 0 ? write_over(in / name, bytes) : replace_by_rename(in / name, bytes);
        }
    }
}

void drawn_transitions() {
    Drawer drawer(14);
    std::vector<Bytes> pool{interval_of(),
                            interval_of(nine, 1'200),
                            correction_of(),
                            with(correction_of(), 16, 7'000, 2),
                            interval_of(10),
                            correction_of(10),
                            bytes_of("text"),
                            {},
                            with(interval_of(), 15, 0, 1),
                            stated_interval_of(),
                            stated_interval_of(10)};
    for (int pair = 0; pair < 500; ++pair) {
        const Content one = draw_content(drawer, pool), other = draw_content(drawer, pool);
        const fs::path in = folder(), fresh = folder();
        fill(in, one);
        const ReadIn before = read_now(in);
        turn(drawer, in, one, other);
        const std::optional<Day> shown_day = drawer.below(2) == 0 ? std::optional(Day{day}) : std::nullopt;
        equal(has_changed(*before, shown_day), one != other);
        fill(fresh, other);
        const ReadIn now = read_now(in), due = read_now(fresh);
        holds(same_files(*now, *due), "not the same files");
        equal(same_files(*before, *now), one == other);
        for (const std::uint8_t quarter : {nine, std::uint8_t{10}}) {
            equal(quarter_of(now, quarter).state, quarter_of(due, quarter).state);
        }
        fs::remove_all(in);
        fs::remove_all(fresh);
    }
}

// Somebody writes a file over and over while it is read: it is one of the two, or arriving, and nothing else.
void written_while_read() {
    const fs::path in = folder();
    const Bytes one = interval_of(nine, 1'300), other = interval_of(nine, 1'000);
    put(in / "h", one);
    std::atomic<bool> is_over = false;
    std::thread writer([&] {
        for (int i = 0; !is_over; ++i) {
            write_over(in / "h", i % 2 == 0 ? other : one);
        }
    });
    std::size_t settled = 0, awaited = 0;
    const auto until = std::chrono::steady_clock::now() + std::chrono::milliseconds(500);
    while (std::chrono::steady_clock::now() < until) {
        const ReadIn reading = read_now(in);
        const QuarterRead &quarter = quarter_of(reading);
        const View bytes = reading->interval(quarter);
        holds(bytes.empty() || std::ranges::equal(bytes, one) || std::ranges::equal(bytes, other), "a third file");
        settled += quarter.statement.has_value();
        awaited += reading->arriving;
    }
    is_over = true;
    writer.join();
    std::cout << "written while read: settled " << settled << " times, awaited " << awaited << " times\n";
    holds(settled + awaited > 0, "nothing was read");
}

// Reads the folder; after each of the core's first readings something is done.
ReadIn read_disturbed(const fs::path &in, int times, const std::function<void()> &disturb) {
    bool is_disturbing = false; // what disturbs may read, too
    after_read = [&] {
        if (!is_disturbing && times-- > 0) {
            is_disturbing = true;
            disturb();
            is_disturbing = false;
        }
    };
    const Outcome outcome = read_folder(in);
    after_read = nullptr;
    const ReadIn reading = std::get<ReadIn>(outcome);
    everything_holds(*reading);
    return reading;
}

// A correction that grows all the time, and says that it is old.
void growing_while_read() {
    const fs::path in = folder();
    put(in / "h", interval_of());
    put(in / "k", correction_of());
    const ReadIn reading = read_disturbed(in, 1'000, [&] {
        std::ofstream(in / "k", std::ios::app) << "x";
        set_age(in / "k", 1'000'000);
    });
    holds(!file_named(reading, "k").steady && !file_named(reading, "k").whole, "it is taken for steady");
    equal(quarter_of(reading).state, State::arriving);
    holds(reading->arriving && !same_files(*reading, *reading) && has_changed(*reading, {}), "it is taken for sure");
    equal(english(file_named(reading, "k").says),
          "It changed while it was read. It is looked at again in two seconds.");
    equal(english(file_named(reading, "h").says), "Not used: its quarter has no statement because of k.");
    // The same of a file that belongs nowhere.
    put(in / "k", bytes_of("a text that is longer than a head"));
    const ReadIn other = read_disturbed(in, 1'000, [&] { std::ofstream(in / "k", std::ios::app) << "x"; });
    equal(quarter_of(other).state, State::settled);
    holds(other->arriving && file_named(other, "k").is_faulty(), "nobody looks again");
}

// It changes once while it is read: what counts is what it is then.
void changed_once_while_read() {
    const Bytes before = interval_of(nine, 1'300), now = interval_of(nine, 1'000);
    const auto ends_with = [&](const char *what, const std::function<void(const fs::path &)> &change) {
        for (int i = 0; i < 20; ++i) {
            const fs::path in = folder();
            put(in / "h", before);
            // Once without haste: then one reading is enough, and the stamp has to tell.
            std::this_thread::sleep_for(i == 0 ? 3 * ticking / 2 : std::chrono::milliseconds(0));
            const ReadIn reading = read_disturbed(in, 1, [&] { change(in / "h"); });
            holds(std::ranges::equal(reading->interval(quarter_of(reading)), now), what);
            holds(!has_changed(*reading, Day{day}), what);
        }
    };
    ends_with("written over", [&](const fs::path &file) { write_over(file, now); });
    ends_with("replaced", [&](const fs::path &file) { replace_by_rename(file, now); });
    ends_with("longer and back", [&](const fs::path &file) {
        write_over(file, Bytes(5'000));
        write_over(file, now);
    });
    const fs::path in = folder();
    put(in / "h", before);
    put(in / "i", interval_of(10));
    const ReadIn reading = read_disturbed(in, 1, [&] { fs::remove(in / "h"); });
    equal(quarter_of(reading).state, State::missing);
    equal(reading->files.size(), 1u);
}

// ---- the order of files, and days ----

void order_of_files() {
    const fs::path in = folder();
    put(in / "1-other", bytes_of("text"));
    put(in / "2-copy", interval_of(1));
    put(in / "1-late", interval_of(20));
    put(in / "3-k", correction_of(1));
    put(in / "9-early", interval_of(1));
    put(in / "5-empty", {});
    put(in / "6-refused", with(interval_of(30), 15, 0, 1));
    put(in / "7-statement", bytes_of("PS"));
    put(in / "4-text", bytes_of("a text that is longer than a head\n"));
    fs::create_symlink("x", in / "8-link");
    std::string order;
    const ReadIn reading = read_now(in);
    for (const File &file : reading->files) {
        order += file.name + " ";
    }
    equal(order, "8-link 6-refused 7-statement 5-empty 1-other 2-copy 3-k 1-late 9-early 4-text ");
}

void the_first_day() {
    const fs::path in = folder();
    holds(!read_now(in)->first_day(), "a day of nothing");
    put(in / "far", for_slot(x_interval, 36'524, 95));
    equal(read_now(in)->first_day()->number, 36'524u);
    put(in / "damaged", with(for_slot(x_interval, 30'000, 1), 15, 0, 1));
    put(in / "a", for_slot(x_interval, 0, 0));
    put(in / "b", for_slot(x_interval, 0, 1));
    equal(read_now(in)->first_day()->number, 0u);
    put(in / "c", for_slot(x_interval, 1, 0));
    put(in / "d", for_slot(x_interval, 1, 1));
    equal(read_now(in)->first_day()->number, 1u);
}

void a_plants_day() {
    const fs::path in = folder();
    put(in / "a", interval_of(3));
    put(in / "b", interval_of(4, 1'000));
    put(in / "c", interval_of(5));
    put(in / "k", correction_of(5));
    const ReadIn reading = read_now(in);
    const auto plants = plants_of(*reading, {day});
    equal(plants.size(), 3u);
    equal(plants[2].id.number, 3u);
    holds(plants[2].kind == Kind::wind && plants[2].capacity == 100, "the third plant");
    const PlantDay of_3 = plant_day(reading, {day}, {3});
    holds(of_3.quarters[0].read != nullptr && !of_3.quarters[0].row && !of_3.quarters[0].line, "missing");
    equal(of_3.quarters[3].line->paid.count, 25'000);
    equal(of_3.quarters[5].row->metered.count, 6'000);
    equal(of_3.quarters[5].before->paid.count, 25'000);
    holds(!of_3.quarters[3].before, "before what");
    const auto paid = of_3.quarters[3].line->paid + of_3.quarters[4].line->paid + of_3.quarters[5].line->paid;
    equal(of_3.sums.count(Figure::paid), paid.count);
    equal(of_3.sums.count(Figure::net), -paid.count);
    equal(dearest(of_3)->number, of_3.quarters[5].line->paid.count > 25'000 ? 5u : 3u);
    const PlantDay of_nobody = plant_day(reading, {day}, {77});
    holds(!of_nobody.quarters[3].line && !dearest(of_nobody), "nobody");
    holds(!dearest(plant_day(reading, {day}, {1})), "a receiver pays");
    equal(plants_of(*reading, {1}).size(), 0u);
    equal(plant_day(reading, {1}, {3}).sums.count(Figure::net), 0);
    equal(english(readiness(*reading, {day})), "Not ready to book: 93 missing (first: 00:00–00:15).");
    put(in / "l", correction_of(7));
    put(in / "empty", {});
    put(in / "d", with(interval_of(6), 15, 0, 1));
    equal(english(readiness(*read_now(in), {day})),
          "Not ready to book: 92 missing (first: 00:00–00:15) · 1 without a statement. Not accounted for: d, l, empty. "
          "Each may be a correction of any quarter, so no figure is final.");
}

// ---- drawn files ----

Bytes random_bytes(Drawer &drawer) {
    static const std::string marks = "HKSGTUWR";
    Bytes bytes(drawer.below(120));
    for (std::uint8_t &byte : bytes) {
        byte = static_cast<std::uint8_t>(drawer.below(256));
    }
    if (bytes.size() > 8 && drawer.below(4) > 0) {
        bytes[0] = 'P';
        bytes[1] = static_cast<std::uint8_t>(marks[drawer.below(static_cast<std::uint32_t>(marks.size()))]);
        set(bytes, 2, drawer.below(3), 4);
        bytes[6] = static_cast<std::uint8_t>(drawer.below(97));
    }
    return bytes;
}

void random_files() {
    Drawer drawer(3);
    const fs::path in = folder();
    for (int file = 0; file < 5'000; ++file) {
        std::string name = std::to_string(file) + ".";
        for (std::uint32_t more = drawer.below(4); more > 0; --more) {
            const char letter = static_cast<char>(1 + drawer.below(255));
            name.push_back(letter == '/' ? '\\' : letter);
        }
        put(in / name, random_bytes(drawer));
    }
    const ReadIn reading = read_now(in);
    equal(reading->files.size(), 5'000u);
    for (const auto &[of, quarters] : reading->days) {
        for (const QuarterRead &quarter : quarters) {
            holds(!quarter.statement, "a statement of random bytes");
        }
    }
    holds(!has_changed(*reading, Day{0}), "nothing changed");
}

// A drawn day against the engine called directly.
void drawn_day() {
    Drawer drawer(5);
    const fs::path in = folder();
    std::vector<Drawn> due;
    for (std::uint8_t quarter = 0; quarter < quarters_of_day; ++quarter) {
        const std::uint32_t rows = 1 + drawer.below(40);
        Drawn drawn{quarter % 2 == 0 ? drawer.interval(day, quarter, rows) : drawer.stated_interval(day, quarter, rows),
                    {}};
        put(in / numbered("h", quarter), drawn.interval);
        if (drawer.below(3) == 0) {
            drawn.correction = drawer.correction(drawn.interval);
            put(in / numbered("k", quarter), drawn.correction);
        }
        due.push_back(drawn);
    }
    const ReadIn reading = read_now(in);
    for (std::uint8_t quarter = 0; quarter < quarters_of_day; ++quarter) {
        const auto &[interval, correction] = due[quarter];
        const auto answer = settle(interval, correction);
        holds(std::ranges::equal(std::get<Statement>(answer).bytes(), quarter_of(reading, quarter).statement->bytes()),
              "");
        const auto &before = quarter_of(reading, quarter).before;
        equal(before.has_value(), !correction.empty());
        const auto without = settle(interval, {});
        holds(!before || std::ranges::equal(std::get<Statement>(without).bytes(), before->bytes()), "before");
    }
}

void all_states() {
    states();
    stated_terms();
    the_thermal_average();
    two_interval_files();
    two_terms();
    two_corrections();
    equal_copies();
    corrections_left_over();
    arriving();
    refusals_of_interval_files();
    refusals_of_stated_terms();
    refusals_of_corrections();
    words_of_every_number();
}

void all_files() {
    files_of_no_quarter();
    names_of_any_bytes();
    what_is_no_plain_file();
    swapped_while_read();
    without_permission();
    order_of_files();
    the_first_day();
    a_plants_day();
}

void all_changes() {
    folders_that_are_none();
    gone_while_read();
    files_come_and_go();
    whatever_is_thrown();
    stopping_and_progress();
    a_file_of_a_gigabyte();
    changes_are_seen();
    drawn_transitions();
    written_while_read();
    growing_while_read();
    changed_once_while_read();
}

} // namespace

int main(int argc, char **argv) {
    if (argc != 2) {
        std::cerr << "reading_test EXAMPLES\n";
        return 2;
    }
    x_interval = bytes_at(fs::path(argv[1]) / "x.interval");
    x_correction = bytes_at(fs::path(argv[1]) / "x.correction");
    all_states();
    all_files();
    all_changes();
    random_files();
    drawn_day();
    return check::passed("reading");
}
