// What is exported, read back by a strict reader.
#include "check.h"
#include "csv.h"
#include "sha256.h"
#include "trial.h"

#include <algorithm>
#include <map>

using namespace client;
using namespace trial;
using check::equal;
using check::holds;

namespace {

using ReadIn = std::shared_ptr<const Reading>;
using Fields = std::vector<std::string>;

constexpr Day day{9'800}; // 2026-10-31

ReadIn read_now(const fs::path &path) {
    return std::get<ReadIn>(read_folder(path));
}

std::string numbered(const char *name, std::uint32_t number) {
    return std::string(name).append(std::to_string(number));
}

// ---- a strict reader ----

// One field at the front of a text, which is taken away: quoted, or without anything that needs quotes.
std::string take_field(std::string_view &text) {
    std::string field;
    if (!text.starts_with('"')) {
        const std::size_t end = std::min(text.find_first_of(",\r\n\""), text.size());
        field = text.substr(0, end);
        text.remove_prefix(end);
        return field;
    }
    text.remove_prefix(1);
    for (;;) {
        const std::size_t end = text.find('"');
        holds(end != std::string_view::npos, "quotes that do not end");
        field += text.substr(0, end);
        text.remove_prefix(end + 1);
        if (!text.starts_with('"')) {
            break;
        }
        field.push_back('"');
        text.remove_prefix(1);
    }
    holds(field.find_first_of(",\"\r\n") != std::string::npos, "quotes for nothing: " + field);
    return field;
}

std::vector<Fields> records_of(const std::string &csv) {
    std::string_view text = csv;
    holds(text.starts_with("\xef\xbb\xbf"), "no byte order mark");
    text.remove_prefix(3);
    std::vector<Fields> records(1);
    while (!text.empty()) {
        records.back().push_back(take_field(text));
        if (text.starts_with(',')) {
            text.remove_prefix(1);
            continue;
        }
        holds(text.starts_with("\r\n"), "a line that does not end with CR LF");
        text.remove_prefix(2);
        records.emplace_back();
    }
    holds(records.back().empty(), "the last line has no end");
    records.pop_back();
    for (const Fields &record : records) {
        equal(record.size(), records[0].size(), "fields");
    }
    return records;
}

struct Table {
    std::string note; // of a day that is not ready
    std::vector<std::map<std::string, std::string>> lines;
};

// As csv.h says: a note before the head, the head, lines; the English names of columns.
Table table_of(const std::string &csv, const std::string &first) {
    std::vector<Fields> records = records_of(csv);
    Table table;
    if (records.at(0).at(0) != first) {
        table.note = records[0][0];
        holds(std::all_of(records[0].begin() + 1, records[0].end(),
                          [](const std::string &field) { return field.empty(); }),
              "the note is not alone");
        records.erase(records.begin());
    }
    const Fields head = records.at(0);
    equal(head.at(0), first);
    for (auto record = records.begin() + 1; record != records.end(); ++record) {
        auto &line = table.lines.emplace_back();
        for (std::size_t i = 0; i < head.size(); ++i) {
            const std::size_t end = head[i].find(' ');
            holds(end != std::string::npos && end + 1 < head[i].size(), "one tongue only: " + head[i]);
            holds(line.emplace(head[i].substr(0, end), (*record)[i]).second, "two columns " + head[i]);
        }
    }
    return table;
}

std::string unguarded(const std::string &text) {
    return text.starts_with('\'') ? text.substr(1) : text;
}

// ---- figures ----

// A number as machines write it, and in no other way.
void is_whole(const std::string &field, std::int64_t due) {
    equal(field, std::to_string(due));
}

void is_money(const std::map<std::string, std::string> &line, const std::string &name, Fen due) {
    is_whole(line.at(name + "_fen"), due.count);
    const std::int64_t fen = std::abs(due.count);
    std::string yuan = due.count < 0 ? "-" : "";
    yuan.append(std::to_string(fen / 100)).append(fen % 100 < 10 ? ".0" : ".").append(std::to_string(fen % 100));
    equal(line.at(name + "_yuan"), yuan);
}

// "2026-10-31T12:00:03+08:00".
void is_time(std::string field) {
    std::replace_if(
        field.begin(), field.end(), [](char letter) { return letter >= '0' && letter <= '9'; }, '0');
    holds(field == "0000-00-00T00:00:00+00:00" || field == "0000-00-00T00:00:00-00:00", "no time: " + field);
}

void is_line(const std::map<std::string, std::string> &line, const Line &due) {
    is_whole(line.at("called1_kwh"), due.called[0].count);
    is_whole(line.at("called2_kwh"), due.called[1].count);
    is_money(line, "compensation", due.compensation);
    is_money(line, "cut", due.cut);
    is_whole(line.at("weight_kwh"), due.weight.count);
    is_money(line, "cap", due.cap);
    is_money(line, "paid", due.paid);
    is_whole(line.at("closing_round"), due.closing);
    is_money(line, "penalty", due.penalty);
    is_money(line, "returned", due.returned);
    is_money(line, "net", due.net());
}

// Bytes 15 to 23 of a file that states its terms, else those of document 01; nothing where nothing was settled.
void are_terms(const std::map<std::string, std::string> &line, View interval) {
    std::vector<std::string> due{"", "", "", "", ""};
    if (!interval.empty() && interval[1] == 'G') {
        due[0] = std::to_string(interval[15]);
        for (std::size_t limit = 0; limit < 4; ++limit) {
            due[1 + limit] = std::to_string(interval[16 + 2 * limit] + 256 * interval[17 + 2 * limit]);
        }
    } else if (!interval.empty()) {
        due = {"50", "100", "320", "320", "750"};
    }
    equal(line.at("baseline_percent"), due[0]);
    equal(line.at("tier1_lowest_li"), due[1]);
    equal(line.at("tier1_highest_li"), due[2]);
    equal(line.at("tier2_lowest_li"), due[3]);
    equal(line.at("tier2_highest_li"), due[4]);
}

// The last byte of the statement's head; nothing where nothing was settled.
std::string averaged_in(const std::optional<Statement> &statement) {
    return statement ? std::to_string(statement->bytes()[statement->terms() ? 48 : 39]) : "";
}

// ---- folders ----

// A drawn day: quarter 7 is missing, 8 is refused, 9 has two files, 10 a correction that is refused. From noon on the
// files state their terms.
fs::path drawn_day(bool is_complete) {
    Drawer drawer(11);
    const fs::path in = folder();
    for (std::uint8_t quarter = 0; quarter < quarters_of_day; ++quarter) {
        const std::uint32_t rows = 4 + drawer.below(16);
        Bytes interval = quarter < 48 ? drawer.interval(day.number, quarter, rows)
                                      : drawer.stated_interval(day.number, quarter, rows);
        const Bytes correction = drawer.correction(interval);
        if (!is_complete && quarter == 7) {
            continue;
        }
        if (!is_complete && quarter == 9) {
            put(in / "second", with(interval, 7, 4'001, 2));
        }
        put(in / numbered("h", quarter), !is_complete && quarter == 8 ? with(interval, 15, 'X', 1) : interval);
        if (quarter % 3 == 0 || quarter == 10) {
            put(in / numbered("k", quarter), !is_complete && quarter == 10 ? with(correction, 9, 'X', 1) : correction);
        }
    }
    put(in / "a copy", bytes_at(in / "h5"));
    put(in / "plants.csv", bytes_of("1,=一厂,\"=1+1, or \"\"so\"\"\"\n2,二厂,\n"));
    return in;
}

void is_quarter(const std::map<std::string, std::string> &line, const PlantDay &plant, unsigned number) {
    const PlantQuarter &quarter = plant.quarters[number];
    equal(line.at("date"), "2026-10-31");
    is_whole(line.at("quarter"), number);
    is_whole(line.at("row"), plant.id.number);
    equal(line.at("start") + "–" + line.at("end"), span(Quarter{static_cast<std::uint8_t>(number)}));
    equal(line.at("state"), say(name_of(quarter.read->state), Tongue::english) + " " +
                                say(name_of(quarter.read->state), Tongue::chinese));
    if (quarter.line) {
        is_line(line, *quarter.line);
        is_whole(line.at("metered_kwh"), quarter.row->metered.count);
    } else {
        equal(line.at("net_fen") + line.at("paid_yuan") + line.at("metered_kwh") + line.at("kind"), "");
    }
    are_terms(line, plant.reading->interval(*quarter.read));
    equal(line.at("averaged"), averaged_in(quarter.read->statement));
    if (quarter.before) {
        is_money(line, "before_net", quarter.before->net());
    } else {
        equal(line.at("before_net_fen") + line.at("before_net_yuan"), "");
    }
    if (quarter.read->statement) {
        equal(line.at("interval_sha256"), sha256(plant.reading->interval(*quarter.read)));
        equal(line.at("interval_file"), plant.reading->files[quarter.read->intervals[0]].name);
    }
    const View correction = plant.reading->correction(*quarter.read);
    if (!correction.empty()) {
        equal(line.at("correction_sha256"), sha256(correction));
    }
    is_time(line.at("worked_out_at"));
}

// ---- tests ----

Table day_read_back(const PlantDay &plant) {
    const Table table = table_of(day_as_csv(plant), "date 日期");
    equal(table.lines.size(), 96u);
    std::int64_t net = 0, paid = 0;
    for (unsigned number = 0; number < quarters_of_day; ++number) {
        is_quarter(table.lines[number], plant, number);
        const auto sum = [&](const char *name) {
            const std::string &field = table.lines[number].at(name);
            return field.empty() ? 0 : std::stoll(field);
        };
        net += sum("net_fen");
        paid += sum("paid_fen");
    }
    equal(net, plant.sums.count(Figure::net));
    equal(paid, plant.sums.count(Figure::paid));
    return table;
}

void days_that_are_not_complete() {
    const ReadIn reading = read_now(drawn_day(false));
    const auto plants = plants_of(*reading, day);
    holds(plants.size() > 20, "few plants");
    for (const Plant &plant : plants) {
        const Table table = day_read_back(plant_day(reading, day, plant.id));
        equal(table.note,
              "Not ready to book: 1 missing (first: 01:45–02:00) · 3 without a statement. Not accounted "
              "for: h8, h9, second and 1 more. Each may be a correction of any quarter, so no figure is "
              "final. 尚不能入账：缺 1 个（首个：01:45–02:00） · 3 个无结算单。未能查明：h8、h9、second等另外 "
              "1 个。其中每一个都可能是任一时段的更正，因此所有数值均非最终结果。");
    }
    const Table table = day_read_back(plant_day(reading, day, plants[0].id));
    equal(table.lines[7].at("state"), "missing 未到");
    equal(table.lines[7].at("interval_file"), "");
    equal(table.lines[8].at("state"), "refused 未通过检查");
    equal(table.lines[8].at("interval_file"), "h8");
    equal(table.lines[9].at("state"), "two interval files 两个时段文件");
    equal(table.lines[9].at("interval_file") + table.lines[9].at("interval_sha256"), "");
    equal(table.lines[9].at("correction_file"), "k9");
    equal(table.lines[10].at("correction_sha256"), sha256(bytes_at(reading->folder / "k10")));
    equal(table.lines[5].at("interval_file"), "a copy");
    equal(csv_name(*reading, day, plants[0].id), numbered("", plants[0].id.number) + "-2026-10-31-not-ready.csv");
    day_read_back(plant_day(reading, day, {60'000}));
}

void a_complete_day() {
    const ReadIn reading = read_now(drawn_day(true));
    holds(arrived(*reading, day).is_ready(), "the drawn day is not ready");
    equal(day_read_back(plant_day(reading, day, plants_of(*reading, day)[1].id)).note, "");
    equal(csv_name(*reading, day, RowId{753}), "753-2026-10-31.csv");
    equal(csv_name(*reading, day, std::nullopt), "all-2026-10-31.csv");
    equal(csv_name(*reading, {1}, std::nullopt), "all-2000-01-02-not-ready.csv");
}

void all_rows() {
    for (const bool is_complete : {false, true}) {
        const ReadIn reading = read_now(drawn_day(is_complete));
        const Table table = table_of(rows_as_csv(*reading, day), "date 日期");
        equal(table.note.empty(), is_complete);
        std::size_t at = 0;
        std::map<std::string, std::size_t> averaged;
        for (std::uint8_t number = 0; number < quarters_of_day; ++number) {
            const QuarterRead &quarter = reading->at({day, {number}});
            std::int64_t sum = 0;
            for (const Line &line : quarter.statement ? quarter.statement->lines() : std::vector<Line>()) {
                const auto &written = table.lines.at(at++);
                is_whole(written.at("quarter"), number);
                is_whole(written.at("row"), line.id.number);
                is_line(written, line);
                are_terms(written, reading->interval(quarter));
                equal(written.at("averaged"), averaged_in(quarter.statement));
                ++averaged[written.at("averaged")];
                sum += line.net().count;
                const std::string name = unguarded(written.at("name"));
                equal(name, line.id.number == 1 ? "=1+1, or \"so\" =一厂" : line.id.number == 2 ? "二厂" : "");
            }
            // Payers and penalties pay exactly what receivers keep.
            equal(sum, 0);
        }
        equal(at, table.lines.size());
        holds(averaged["0"] > 0 && averaged["1"] > 0 && averaged.size() == 2, "quarters of one kind alone");
    }
}

// Names that a spreadsheet would work out.
void formulas() {
    const fs::path in = folder();
    const std::vector<std::string> names{"=1+1", "+1",  "-1",  "@x",      "'x",    "＝1",
                                         "＋1",  "－1", "＠1", "a,\"b\"", "plain", " =1"};
    std::uint8_t quarter = 0;
    Drawer drawer(2);
    for (const std::string &name : names) {
        put(in / name, drawer.interval(day.number, quarter++, 2));
    }
    const ReadIn reading = read_now(in);
    const Table table = table_of(files_as_csv(*reading), "file 文件");
    equal(table.lines.size(), names.size());
    const Table of_day = table_of(day_as_csv(plant_day(reading, day, {1})), "date 日期");
    for (std::size_t i = 0; i < names.size(); ++i) {
        const std::string &listed = table.lines[i].at("file");
        equal(unguarded(listed), names[i]);
        holds(std::string("=+-@\t\r").find(listed[0]) == std::string::npos, "a formula: " + listed);
        equal(of_day.lines[i].at("interval_file"), listed);
        check::equal(listed != names[i], i < 9, "guarded: " + listed);
    }
}

void the_list_of_files() {
    const ReadIn reading = read_now(drawn_day(false));
    fs::create_symlink("x", reading->folder / "link");
    put(reading->folder / "long", Bytes(20'000, 'x'));
    const ReadIn now = read_now(reading->folder);
    const Table table = table_of(files_as_csv(*now), "file 文件");
    equal(table.lines.size(), now->files.size());
    for (std::size_t i = 0; i < now->files.size(); ++i) {
        const File &file = now->files[i];
        const auto &line = table.lines[i];
        equal(unguarded(line.at("file")), file.name);
        equal(line.at("says"), file.says.in(Tongue::english));
        equal(line.at("says_zh"), file.says.in(Tongue::chinese));
        equal(line.at("what_to_do_zh"), file.advice ? file.advice->in(Tongue::chinese) : "");
        equal(line.at("sha256"), file.whole ? sha256(file.bytes) : "");
        equal(line.at("quarter").empty(), !file.slot.has_value());
        holds(!file.slot || (line.at("form") == "interval file with stated terms 时段文件（载明基准和限价）") ==
                                (file.form == Form::interval && file.slot->quarter.number >= 48),
              "which files state their terms: " + line.at("form"));
        equal(line.at("faulty"), file.is_faulty() ? "1" : "0");
        equal(line.at("accounted_for"), file.fault == Fault::unaccounted ? "0" : "1");
    }
    equal(table.lines[0].at("file"), "link");
    equal(table.lines[0].at("bytes"), "");
    equal(table.lines.back().at("bytes"), "20000");
    equal(table.lines.back().at("sha256"), "");
}

} // namespace

int main() {
    days_that_are_not_complete();
    a_complete_day();
    all_rows();
    formulas();
    the_list_of_files();
    return check::passed("csv");
}
