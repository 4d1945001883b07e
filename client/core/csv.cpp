#include "csv.h"

#include "named.h"
#include "rules.h"
#include "sha256.h"

#include <algorithm>
#include <array>
#include <string_view>

namespace client {

namespace {

constexpr std::string_view byte_order_mark = "\xef\xbb\xbf";
constexpr std::string_view line_end = "\r\n";

std::string in_both(const Said &said) {
    return said.in(Tongue::english) + " " + said.in(Tongue::chinese);
}

// In yuan, for machines: "-584.92".
std::string plain_yuan(Fen money) {
    const bool is_below = money.count < 0;
    const auto fen = is_below ? -static_cast<std::uint64_t>(money.count) : static_cast<std::uint64_t>(money.count);
    const std::string cents = std::to_string(fen % 100);
    return std::string(is_below ? 1 : 0, '-') + std::to_string(fen / 100) + (cents.size() < 2 ? ".0" : ".") + cents;
}

// Whether a spreadsheet may take a text for a formula, or an apostrophe for its own.
bool needs_guard(std::string_view text) {
    constexpr std::array<std::string_view, 11> openings{"=", "+", "-", "@", "\t", "\r", "'", "＝", "＋", "－", "＠"};
    return std::any_of(openings.begin(), openings.end(),
                       [&](std::string_view opening) { return text.starts_with(opening); });
}

std::string quoted(std::string_view text) {
    if (text.find_first_of(",\"\r\n") == std::string_view::npos) {
        return std::string(text);
    }
    std::string all(1, '"');
    for (const char letter : text) {
        all.append(letter == '"' ? 2 : 1, letter);
    }
    all.push_back('"');
    return all;
}

// A file being written, field by field.
class Sheet {
  public:
    void text(std::string_view text) { field(std::string(needs_guard(text) ? 1 : 0, '\'').append(text)); }
    void text(const Said &said) { text(in_both(said)); }
    void number(std::int64_t number) { field(std::to_string(number)); }
    void number(Kwh energy) { number(energy.count); }
    void money(Fen money) {
        number(money.count);
        field(plain_yuan(money));
    }
    void blank(std::size_t fields = 1) {
        for (; fields > 0; --fields) {
            field("");
        }
    }
    void end_line() {
        all_ += line_end;
        is_first_ = true;
    }
    void head(const std::vector<Said> &names) {
        for (const Said &name : names) {
            text(name);
        }
        end_line();
    }
    std::string all() const { return all_; }

  private:
    void field(std::string_view field) {
        if (!is_first_) {
            all_.push_back(',');
        }
        all_ += quoted(field);
        is_first_ = false;
    }

    std::string all_{byte_order_mark};
    bool is_first_ = true;
};

// A sentence in a record of its own, before the head.
void begin(Sheet &sheet, const std::optional<Said> &why, const std::vector<Said> &head) {
    if (why) {
        sheet.text(*why);
        sheet.blank(head.size() - 1);
        sheet.end_line();
    }
    sheet.head(head);
}

// Why a day may not be booked.
std::optional<Said> unreadiness(const Reading &reading, Day day) {
    return arrived(reading, day).is_ready() ? std::nullopt : std::optional(readiness(reading, day));
}

void put_slot(Sheet &sheet, Slot slot) {
    const auto end = slot.quarter.number + 1u;
    sheet.text(date(slot.day));
    sheet.number(slot.quarter.number);
    sheet.text(start(slot.quarter));
    sheet.text(end == quarters_of_day ? "24:00" : start({static_cast<std::uint8_t>(end)}));
}

using Heads = std::vector<Said>;

// Money stands in two columns.
void add_money(Heads &heads, Word name) {
    heads.emplace_back(Word::csv_in_fen, std::vector<Hole>{Said(name)});
    heads.emplace_back(Word::csv_in_yuan, std::vector<Hole>{Said(name)});
}

Heads line_heads() {
    Heads heads;
    for (const Field &field : fields()) {
        switch (field.unit) {
        case Unit::money:
            add_money(heads, field.csv);
            break;
        case Unit::energy:
            heads.emplace_back(Word::csv_in_kwh, std::vector<Hole>{Said(field.csv)});
            break;
        case Unit::round:
            heads.emplace_back(field.csv);
        }
    }
    return heads;
}

Heads joined(const std::vector<Heads> &parts) {
    Heads all;
    for (const Heads &part : parts) {
        all.insert(all.end(), part.begin(), part.end());
    }
    return all;
}

Heads slot_heads() {
    return {Word::csv_date, Word::csv_quarter, Word::csv_start, Word::csv_end, Word::csv_row};
}

void put_line(Sheet &sheet, const Line &line) {
    for (const Field &field : fields()) {
        field.unit == Unit::money ? sheet.money({field.of(line)}) : sheet.number(field.of(line));
    }
}

void put_row(Sheet &sheet, const std::optional<Row> &row) {
    if (!row) {
        sheet.blank(3);
        return;
    }
    sheet.text(Said(kind_word(row->kind)));
    sheet.text(Said(status_word(row->status)));
    sheet.number(row->metered);
}

Heads terms_heads() {
    return {Word::csv_baseline, Word::csv_limit_1, Word::csv_limit_2,
            Word::csv_limit_3,  Word::csv_limit_4, Word::csv_averaged};
}

// The terms that ruled, stated or not, and whether the thermal average did; none where nothing was settled.
void put_terms(Sheet &sheet, const QuarterRead &quarter) {
    if (!quarter.statement) {
        sheet.blank(terms_heads().size());
        return;
    }
    const Terms terms = terms_of(*quarter.statement);
    sheet.number(terms.baseline);
    for (const Li limit : terms.limits) {
        sheet.number(limit.count);
    }
    sheet.number(quarter.statement->is_averaged() ? 1 : 0);
}

std::string hash_of(const File &file) {
    return file.whole ? sha256(file.bytes) : "";
}

// The file of a quarter where it is one, and no choice between several.
const File *only(const Reading &reading, const std::vector<std::size_t> &places) {
    const auto is_original = [&](std::size_t place) { return !reading.files.at(place).same_as; };
    const auto found = std::find_if(places.begin(), places.end(), is_original);
    const bool is_one = std::count_if(places.begin(), places.end(), is_original) == 1;
    return is_one ? &reading.files.at(*found) : nullptr;
}

void put_file(Sheet &sheet, const File *file) {
    if (file == nullptr) {
        sheet.blank(2);
        return;
    }
    sheet.text(file->name);
    sheet.text(hash_of(*file));
}

Heads day_heads() {
    Heads before;
    add_money(before, Word::csv_before);
    return joined({slot_heads(),
                   {Word::csv_state, Word::csv_kind, Word::csv_status, {Word::csv_in_kwh, {Said(Word::csv_metered)}}},
                   line_heads(),
                   before,
                   terms_heads(),
                   {Word::csv_interval, Word::csv_interval_hash, Word::csv_correction, Word::csv_correction_hash,
                    Word::csv_taken}});
}

void put_quarter(Sheet &sheet, const PlantDay &day, unsigned number) {
    const PlantQuarter &quarter = day.quarters[number];
    put_slot(sheet, {day.day, {static_cast<std::uint8_t>(number)}});
    sheet.number(day.id.number);
    sheet.text(Said(name_of(quarter.read->state)));
    put_row(sheet, quarter.row);
    quarter.line ? put_line(sheet, *quarter.line) : sheet.blank(line_heads().size());
    quarter.before ? sheet.money(quarter.before->net()) : sheet.blank(2);
    put_terms(sheet, *quarter.read);
    put_file(sheet, only(*day.reading, quarter.read->intervals));
    put_file(sheet, only(*day.reading, quarter.read->corrections));
    sheet.text(local_time(day.reading->taken));
    sheet.end_line();
}

Heads rows_heads() {
    return joined({slot_heads(),
                   {Word::csv_name, Word::csv_state},
                   line_heads(),
                   terms_heads(),
                   {Word::csv_interval_hash, Word::csv_correction_hash, Word::csv_taken}});
}

std::string name_in_both(const Names &names, RowId id) {
    const std::string chinese = names.of(id, Tongue::chinese);
    const std::string english = names.of(id, Tongue::english);
    return chinese == english ? english : english + " " + chinese;
}

void put_rows(Sheet &sheet, const Reading &reading, Slot slot, const std::string &taken) {
    const QuarterRead &quarter = reading.at(slot);
    if (!quarter.statement) {
        return;
    }
    const File *correction = only(reading, quarter.corrections);
    const std::string interval_hash = sha256(reading.interval(quarter));
    const std::string correction_hash = correction != nullptr ? hash_of(*correction) : "";
    for (const Line &line : quarter.statement->lines()) {
        put_slot(sheet, slot);
        sheet.number(line.id.number);
        sheet.text(name_in_both(reading.names, line.id));
        sheet.text(Said(name_of(quarter.state)));
        put_line(sheet, line);
        put_terms(sheet, quarter);
        sheet.text(interval_hash);
        sheet.text(correction_hash);
        sheet.text(taken);
        sheet.end_line();
    }
}

Heads files_heads() {
    return {Word::csv_file,         Word::csv_form,         Word::csv_date,           Word::csv_quarter,
            Word::csv_bytes,        Word::csv_hash,         Word::csv_faulty,         Word::csv_accounted,
            Word::csv_says_english, Word::csv_says_chinese, Word::csv_advice_english, Word::csv_advice_chinese,
            Word::csv_taken};
}

void put_listed(Sheet &sheet, const File &file, const std::string &taken) {
    sheet.text(file.name);
    sheet.text(Said(name_of(file)));
    if (file.slot) {
        sheet.text(date(file.slot->day));
        sheet.number(file.slot->quarter.number);
    } else {
        sheet.blank(2);
    }
    file.obstacle ? sheet.blank() : sheet.number(static_cast<std::int64_t>(file.stamp.size));
    sheet.text(hash_of(file));
    sheet.number(file.is_faulty() ? 1 : 0);
    sheet.number(file.fault == Fault::unaccounted ? 0 : 1);
    for (const Tongue tongue : {Tongue::english, Tongue::chinese}) {
        sheet.text(file.says.in(tongue));
    }
    for (const Tongue tongue : {Tongue::english, Tongue::chinese}) {
        sheet.text(file.advice ? file.advice->in(tongue) : "");
    }
    sheet.text(taken);
    sheet.end_line();
}

} // namespace

std::string day_as_csv(const PlantDay &day) {
    Sheet sheet;
    begin(sheet, unreadiness(*day.reading, day.day), day_heads());
    for (unsigned number = 0; number < quarters_of_day; ++number) {
        put_quarter(sheet, day, number);
    }
    return sheet.all();
}

std::string rows_as_csv(const Reading &reading, Day day) {
    Sheet sheet;
    begin(sheet, unreadiness(reading, day), rows_heads());
    const std::string taken = local_time(reading.taken);
    for (unsigned number = 0; number < quarters_of_day; ++number) {
        put_rows(sheet, reading, {day, {static_cast<std::uint8_t>(number)}}, taken);
    }
    return sheet.all();
}

std::string files_as_csv(const Reading &reading) {
    Sheet sheet;
    begin(sheet, reservation(reading), files_heads());
    const std::string taken = local_time(reading.taken);
    for (const File &file : reading.files) {
        put_listed(sheet, file, taken);
    }
    return sheet.all();
}

std::string csv_name(const Reading &reading, Day day, std::optional<RowId> id) {
    const std::string who = id ? std::to_string(id->number) : "all";
    const bool is_ready = arrived(reading, day).is_ready();
    return who + "-" + date(day) + (is_ready ? "" : "-not-ready") + ".csv";
}

bool is_export(View bytes) {
    const std::string_view text(reinterpret_cast<const char *>(bytes.data()), bytes.size());
    if (!text.starts_with(byte_order_mark)) {
        return false;
    }
    const std::string_view first = text.substr(byte_order_mark.size());
    const std::size_t end = first.find(line_end);
    const std::string_view second = end == std::string_view::npos ? "" : first.substr(end + line_end.size());
    const auto is_head = [](std::string_view line) {
        return line.starts_with(in_both(Word::csv_date) + ",") || line.starts_with(in_both(Word::csv_file) + ",");
    };
    return is_head(first) || is_head(second);
}

} // namespace client
