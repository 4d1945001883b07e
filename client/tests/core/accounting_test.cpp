// What a file is known to be, and what a folder says that has files nobody can account for.
#include "check.h"
#include "csv.h"
#include "known.h"
#include "naming.h"
#include "recognising.h"
#include "trial.h"
#include "view.h"

#include <algorithm>
#include <vector>

using namespace client;
using namespace trial;
using check::equal;
using check::holds;

namespace client {

std::ostream &operator<<(std::ostream &out, Form form) {
    return out << raw(name_of(form), Tongue::english);
}

} // namespace client

namespace {

using namespace std::string_literals;
using ReadIn = std::shared_ptr<const Reading>;

constexpr std::uint32_t day = 9'800; // 2026-10-31

std::string english(const Said &said) {
    return said.in(Tongue::english);
}

std::string chinese(const Said &said) {
    return said.in(Tongue::chinese);
}

ReadIn read_now(const fs::path &in) {
    return std::get<ReadIn>(read_folder(in));
}

const File &file_named(const ReadIn &reading, const std::string &name) {
    const auto found = std::ranges::find(reading->files, name, &File::name);
    holds(found != reading->files.end(), name + " is not listed");
    return *found;
}

// A whole day of two rows in each quarter, which is ready to book. From noon on the files state their terms.
fs::path whole_day(Drawer &drawer) {
    const fs::path in = folder();
    for (std::uint8_t quarter = 0; quarter < quarters_of_day; ++quarter) {
        put(in / std::to_string(quarter),
            quarter < 48 ? drawer.interval(day, quarter, 2) : drawer.stated_interval(day, quarter, 2));
    }
    holds(arrived(*read_now(in), {day}).is_ready(), "the whole day is not ready");
    return in;
}

Bytes statement_of(const Bytes &interval, const Bytes &correction = {}) {
    const auto answer = settle(interval, correction);
    const View bytes = std::get<Statement>(answer).bytes();
    return {bytes.begin(), bytes.end()};
}

// ---- what is known ----

Form form_of_text(const std::string &text, const std::string &path = "x") {
    const Bytes bytes = bytes_of(text);
    const std::size_t tail = std::min(bytes.size(), ending_length);
    return recognised(path, {bytes, {bytes.end() - static_cast<std::ptrdiff_t>(tail), bytes.end()}, {}, true}, true);
}

// The front and the end of a zip archive, and something between.
std::string zip() {
    return "PK\3\4\x14\0\6\0\10\0\0\0!\0"s + std::string(60, 'x') + "PK\5\6\0\0\0\0\1\0\1\0"s + std::string(10, '\0');
}

void signatures() {
    const std::vector<std::pair<std::string, Form>> due{
        {"%PDF-1.7\n%\xe2\xe3\xcf\xd3\n\0\1\2"s, Form::pdf},
        {"\x89PNG\r\n\x1a\n\0\0\0\rIHDR"s, Form::picture},
        {"\xff\xd8\xff\xe0\0\x10JFIF\0"s, Form::picture},
        {"\xff\xd8\xff\xe1\0\x10"
         "Exif\0"s,
         Form::picture},
        {"GIF89a\1\0\1\0"s, Form::picture},
        {"II*\0\10\0\0\0"s, Form::picture},
        {"\xd0\xcf\x11\xe0\xa1\xb1\x1a\xe1\0\0"s, Form::archive},
        {"7z\xbc\xaf\x27\x1c\0\4"s, Form::archive},
        {"Rar!\x1a\7\1\0"s, Form::archive},
        {"\x1f\x8b\10\0\0"s, Form::archive},
        {"\xfd\x37zXZ\0\0\4"s, Form::archive},
        {zip(), Form::archive},
    };
    for (const auto &[text, form] : due) {
        check::equal(form_of_text(text), form, text);
        // Cut within its signature it is unknown, or a correction that is none.
        holds(form_of_text(text.substr(0, 2)) != form, "known by two bytes: " + text);
    }
}

// A correction of day 1027 begins as a zip archive does, but for a byte: no damage in one place makes it one.
void zip_or_correction() {
    const std::string good = zip();
    for (std::size_t at : {std::size_t{0}, std::size_t{4}, good.size() - 22, good.size() - 21, good.size() - 1}) {
        std::string other = good;
        other[at] = at == 4 ? '\0' : 'x';
        holds(form_of_text(other) != Form::archive, "a zip archive that is none");
    }
    holds(form_of_text(good + "x") != Form::archive, "with a byte behind its end");
    holds(form_of_text(good.substr(0, good.size() - 1)) != Form::archive, "cut");
    Drawer drawer(3);
    const Bytes correction = drawer.correction(drawer.interval(0x0403, 8, 8));
    for (unsigned byte = 0; byte < 256; ++byte) {
        Bytes damaged = correction;
        damaged[4] = static_cast<std::uint8_t>(byte);
        Bytes longer = correction;
        longer.insert(longer.begin() + 4, static_cast<std::uint8_t>(byte));
        for (const Bytes &bytes : {damaged, longer}) {
            equal(form_of_text({bytes.begin(), bytes.end()}), Form::correction);
        }
    }
}

void texts() {
    const std::string gb18030 = "\xb5\xe7\xb3\xa7,\xb5\xe7\xc1\xbf,\xb1\xb8\xd7\xa2,\x81\x30\x81\x30\n";
    for (const std::string &text :
         {"a text that is longer than a head"s, "电厂，电量，备注，说明\n"s, gb18030,
          "\xef\xbb\xbfid;name;kWh\r\n1;a;2"s, "\xff\xfe"s + "i\0d\0;\0n\0a\0m\0e\0\n\0\x35\x75"s,
          "\xfe\xff"s + "\0i\0d\0;\0n\0a\0m\0e\0\n\x75\x35"s, "PHASE 1: a text may begin with our marks"s,
          "PK, PS and PG: so may this one"s}) {
        check::equal(form_of_text(text), Form::text, text);
    }
    for (const std::string &text : {"PG: sixteen long"s, "PT; as long as the head of PG"s.substr(0, 24)}) {
        check::equal(form_of_text(text), Form::text, text);
    }
    for (const std::string &text : {"shorter"s, "as long as a head"s.substr(0, 15), "a text with a nought\0 in it"s,
                                    "a text with a bell\a in it"s, "not UTF-8, not GB18030: \xff\xff"s,
                                    "\xff\xfe"s + "i\0d\0;\0n\0a\0m\0e\0\n\0\0\xd8"s, "cut at its end: \xe7"s}) {
        check::equal(form_of_text(text), Form::unknown, text);
    }
    // What is cut because no more was read may end within a letter.
    holds(is_text(bytes_of("cut at its end: \xe7"), false), "a letter that was cut by us");
    holds(!is_text(bytes_of("cut at its end: \xe7"), true), "a letter that was cut by somebody else");
}

// Damaged in one place, no file of ours is ever known to be something else.
void nothing_of_ours() {
    Drawer drawer(4);
    // Among the days are such as make a head look like something else: 0x4649 stands as "IF" behind the G of PG.
    for (const std::uint32_t number : {0u, 0x0403u, 0x2020u, 0x4649u, 0x4b50u, 0x7e7eu, 36'524u}) {
        const Bytes interval = drawer.interval(number, 32, 2), correction = drawer.correction(interval);
        const Bytes stated = drawer.stated_interval(number, 32, 2);
        for (const Bytes &good : {interval, stated, correction, statement_of(interval), statement_of(stated)}) {
            const auto is_ours = [&](const Bytes &bytes) {
                const Form form = form_of_text({bytes.begin(), bytes.end()});
                holds(form <= Form::coming || form == Form::empty || form == Form::unknown, "known as something else");
            };
            for (std::size_t at = 0; at < good.size(); ++at) {
                for (unsigned byte = 0; byte < 256; ++byte) {
                    is_ours(with(good, at, byte, 1));
                }
                is_ours({good.begin(), good.begin() + static_cast<std::ptrdiff_t>(at)});
                Bytes less = good;
                less.erase(less.begin() + static_cast<std::ptrdiff_t>(at));
                is_ours(less);
                for (const unsigned byte : {0x14u, 0xffu, unsigned{'%'}, 0x89u, 0x1fu, unsigned{' '}}) {
                    Bytes more = good;
                    more.insert(more.begin() + static_cast<std::ptrdiff_t>(at), static_cast<std::uint8_t>(byte));
                    is_ours(more);
                }
            }
        }
    }
}

// What an accountant keeps beside the files is no fault.
void an_accountants_folder() {
    Drawer drawer(1);
    const fs::path in = whole_day(drawer);
    put(in / "month.xlsx", bytes_of(zip()));
    std::string large = zip();
    large.insert(40, 100'000, 'x');
    put(in / "large.xlsx", bytes_of(large));
    put(in / "bill.pdf", bytes_of("%PDF-1.4\n\xe2\xe3\xcf\xd3"s));
    put(in / "notes.txt", bytes_of("checked by Li on 2 November"));
    put(in / "scan.png", bytes_of("\x89PNG\r\n\x1a\n\0\0\0\rIHDR"s));
    put(in / "2026-10-31-q09 notes.txt", bytes_of("a text about a quarter, by its name"));
    const ReadIn reading = read_now(in);
    holds(arrived(*reading, {day}).is_ready(), "an accountant's files are at fault");
    equal(english(readiness(*reading, {day})), "Ready to book");
    holds(!reservation(*reading), "a reservation");
    equal(file_named(reading, "large.xlsx").form, Form::archive);
    equal(english(file_named(reading, "notes.txt").says), "Not used: it is neither an interval file nor a correction.");
    // Our own exports.
    put(in / "export.csv", bytes_of(day_as_csv(plant_day(reading, {day}, {1}))));
    put(in / "files.csv", bytes_of(files_as_csv(*reading)));
    put(in / "rows.csv", bytes_of(rows_as_csv(*reading, {7}))); // not ready: its note comes first
    const ReadIn with_exports = read_now(in);
    for (const char *name : {"export.csv", "files.csv", "rows.csv"}) {
        equal(file_named(with_exports, name).form, Form::exported);
        equal(english(file_named(with_exports, name).says), "Not used: an export of this program.");
    }
    holds(arrived(*with_exports, {day}).is_ready(), "our own exports are at fault");
}

// ---- what is not accounted for ----

void one_file_for_all_days() {
    Drawer drawer(2);
    const fs::path in = whole_day(drawer);
    put(in / "other day", for_slot(drawer.interval(day, 0, 2), 5, 7)); // a quarter of another day
    holds(arrived(*read_now(in), {day}).is_ready(), "another day's interval file");
    const auto must_not_be_ready = [&](const char *name, const Bytes &bytes) {
        put(in / name, bytes);
        const ReadIn reading = read_now(in);
        holds(!arrived(*reading, {day}).is_ready() && !arrived(*reading, {5}).is_ready(), name);
        equal(english(readiness(*reading, {day})),
              std::string("Not ready to book. Not accounted for: ") + name +
                  ". It may be a correction of any quarter, so no figure is final.");
        equal(chinese(*reservation(*reading)),
              std::string("未能查明：") + name + "。它可能是任一时段的更正，因此所有数值均非最终结果。");
        fs::remove(in / name);
    };
    const Bytes correction = drawer.correction(drawer.interval(day, 3, 2));
    must_not_be_ready("damaged mark", with(correction, 0, 'X', 1));
    must_not_be_ready("one byte", {'P'});
    must_not_be_ready("empty", {});
    must_not_be_ready("of another day", for_slot(correction, 4'000, 3));
    must_not_be_ready("of the other day", for_slot(correction, 5, 8));
    must_not_be_ready("out of range", for_slot(correction, 40'000, 3));
    must_not_be_ready("refused", with(for_slot(drawer.interval(day, 0, 2), 4'000, 0), 15, 'X', 1));
    must_not_be_ready("coming", with(correction, 1, 'W', 1));
    must_not_be_ready("stated terms", with(for_slot(drawer.stated_interval(day, 0, 2), 4'000, 0), 15, 40, 1));
    must_not_be_ready("as an interval file", with(for_slot(correction, 4'000, 3), 1, 'G', 1));
    must_not_be_ready("as a statement", with(correction, 1, 'T', 1));
    must_not_be_ready("random", {1, 2, 3, 4, 5, 6, 7, 8, 9, 10, 11, 12, 13, 14, 15, 16, 17, 18});
}

void many_files() {
    Drawer drawer(2);
    const fs::path in = whole_day(drawer);
    for (const char *name : {"u1", "u2", "u3", "u4", "u5"}) {
        put(in / name, Bytes{0});
    }
    equal(english(*reservation(*read_now(in))), "Not accounted for: u1, u2, u3 and 2 more. Each may be a correction of "
                                                "any quarter, so no figure is final.");
}

// ---- names ----

void what_names_say() {
    const auto slot = [](const char *name) {
        std::string all;
        for (const Slot &found : naming_of(name).slots) {
            all += date(found.day).append(" ").append(std::to_string(found.quarter.number)).append(";");
        }
        return all.empty() ? "none" : all;
    };
    equal(slot("2026-10-31-q09.interval"), "2026-10-31 9;");
    equal(slot("sub/2026-10-31-Q95.CORRECTION"), "2026-10-31 95;");
    equal(slot("2026-10-31-q09/x"), "none"); // only the file's own name
    equal(slot("copy of 2000-01-01-q00 (2).interval"), "2000-01-01 0;");
    equal(slot("2000-01-01-q00 2026-10-31-q09"), "2000-01-01 0;2026-10-31 9;");
    for (const char *name : {"2026-10-31-q96", "2026-02-30-q01", "1999-12-31-q01", "2100-01-01-q01", "12026-10-31-q09",
                             "2026-10-31-q099", "2026-10-31", "q09", "", "2026-13-01-q01", "2026-00-01-q01"}) {
        check::equal(slot(name), "none", name);
    }
    holds(naming_of("x.Interval").as == NamedAs::interval && naming_of("x.correction").as == NamedAs::correction &&
              naming_of("x.statement").as == NamedAs::statement && !naming_of("x.intervals").as &&
              !naming_of("interval").as,
          "endings");
}

void named_otherwise() {
    Drawer drawer(6);
    const fs::path in = whole_day(drawer);
    const Bytes interval = bytes_at(in / "12");
    const auto is_at_fault = [&](const char *name, const Bytes &bytes, const std::string &says) {
        put(in / name, bytes);
        const ReadIn reading = read_now(in);
        check::equal(english(file_named(reading, name).says), says, name);
        holds(file_named(reading, name).fault == Fault::unaccounted && !arrived(*reading, {day}).is_ready(), name);
        fs::remove(in / name);
    };
    is_at_fault("x.correction", bytes_of("a text that is longer than a head"),
                "Its name says that it is a correction, and it is not. Not used: it is neither an interval file nor a "
                "correction.");
    is_at_fault("2026-10-31-q13.interval", interval,
                "Its name says that it is an interval file for 2026-10-31 03:15–03:30, and it is not. The same bytes "
                "as 12; counted once.");
    is_at_fault("2026-10-31-q13", interval,
                "Its name says that it is for 2026-10-31 03:15–03:30, and it is not. The same bytes as 12; counted "
                "once.");
    is_at_fault("2026-10-31-q12.correction", {'X', 'K', 3},
                "Its name says that it is a correction for 2026-10-31 03:00–03:15, and it is not. Nobody knows what "
                "this is. It may be a correction that was damaged.");
}

// The quarter that a file is named for tells of it.
void the_quarter_says_so() {
    Drawer drawer(7);
    const fs::path in = whole_day(drawer);
    put(in / "2026-10-31-q12.correction", bytes_of("XK\3"));
    ReadIn reading = read_now(in);
    const QuarterRead *quarter = &reading->at({{day}, {12}});
    equal(
        english(*reservation(*reading, *quarter)),
        "The name of 2026-10-31-q12.correction says that it is for this quarter, and it cannot be used. Not accounted "
        "for: 2026-10-31-q12.correction. It may be a correction of any quarter, so no figure is final.");
    holds(reading->at({{day}, {13}}).named.empty(), "another quarter");
    equal(english(*reservation(*reading, reading->at({{day}, {13}}))), english(*reservation(*reading)));
    // Without an interval file.
    fs::remove(in / "2026-10-31-q12.correction");
    fs::rename(in / "12", in / "2026-10-31-q12.interval");
    put(in / "2026-10-31-q12.interval", Bytes(40, 7));
    reading = read_now(in);
    quarter = &reading->at({{day}, {12}});
    equal(english(*hindrance(*reading, *quarter)),
          "No interval file for this quarter: 2026-10-31-q12.interval is named "
          "for it, and cannot be used. Nothing can be said about it.");
    equal(chinese(*hindrance(*reading, *quarter)),
          "本时段没有可用的时段文件：2026-10-31-q12.interval 的文件名属于本时段，但无法采用，暂无结果。");
    // Also where it is of a day that no other file names, and where it cannot be read.
    fs::create_symlink("nowhere", in / "2026-11-01-q00.interval");
    reading = read_now(in);
    equal(reading->at({{day + 1}, {0}}).named.size(), 1u);
}

// ---- statements ----

// Each of these in the place of a statement is named as one that is not whole, and keeps the day from being booked.
void halves_are_at_fault(const fs::path &in, const std::vector<Bytes> &halves) {
    for (const Bytes &half : halves) {
        put(in / "half", half);
        const ReadIn now = read_now(in);
        equal(english(file_named(now, "half").says),
              "It begins as a statement and is none that is whole. It may be a correction that was damaged.");
        holds(!arrived(*now, {day}).is_ready(), "half a statement is harmless");
    }
    fs::remove(in / "half");
}

void statements_are_compared() {
    Drawer drawer(14);
    const fs::path in = whole_day(drawer);
    const Bytes interval = bytes_at(in / "9"), same = statement_of(interval);
    const Bytes other = statement_of(drawer.interval(day, 9, 3));
    put(in / "same", same);
    put(in / "old", other);
    put(in / "none", for_slot(same, 5, 9));
    const ReadIn reading = read_now(in);
    equal(english(file_named(reading, "same").says), "The same as worked out now.");
    equal(english(file_named(reading, "old").says),
          "A statement of another time: the files give another one now. Somebody may have booked it.");
    equal(chinese(file_named(reading, "none").says), "该时段现无结算单，无法比对。");
    equal(reading->outdated.size(), 1u);
    holds(arrived(*reading, {day}).is_ready(), "whole statements are at fault");
    halves_are_at_fault(in, {cut(same, 20), bytes_of("PS"), with(same, 2, 40'000, 4), with(same, 6, 96, 1),
                             with(same, 11, 1 + same[11], 1), with(same, 39, 2, 1), with(same, 39, 255, 1),
                             cut(same, same.size() - 42)});
    // The longest of all: 256 rows. And a correction makes an old statement of the one that was the same.
    const Bytes longest = drawer.interval(day, 20, 256);
    put(in / "20", longest);
    put(in / "long", statement_of(longest));
    put(in / "correction", drawer.correction(interval));
    const ReadIn corrected = read_now(in);
    equal(english(file_named(corrected, "long").says), "The same as worked out now.");
    equal(corrected->outdated.size(), 2u);
    // A statement is never a figure.
    holds(!corrected->at({{5}, {9}}).statement, "a figure of a statement");
}

// The same of statements of files that state their terms.
void statements_with_terms() {
    Drawer drawer(12);
    const fs::path in = whole_day(drawer);
    const Bytes interval = bytes_at(in / "60"), same = statement_of(interval);
    equal(same.at(1), std::uint8_t{'T'});
    put(in / "same", same);
    put(in / "old", statement_of(drawer.interval(day, 60, 3))); // of the form that states none
    put(in / "older", statement_of(drawer.stated_interval(day, 60, 3)));
    put(in / "none", for_slot(same, 5, 60));
    const ReadIn reading = read_now(in);
    equal(english(file_named(reading, "same").says), "The same as worked out now.");
    equal(say(name_of(file_named(reading, "same")), Tongue::english), "statement with stated terms (never used)");
    equal(say(name_of(file_named(reading, "same")), Tongue::chinese), "结算单（载明基准和限价，从不采用）");
    equal(say(name_of(file_named(reading, "old")), Tongue::english), "statement (never used)");
    for (const char *name : {"old", "older"}) {
        equal(english(file_named(reading, name).says),
              "A statement of another time: the files give another one now. Somebody may have booked it.");
    }
    equal(english(file_named(reading, "none").says), "There is no statement for its quarter now to compare it with.");
    equal(reading->outdated.size(), 2u);
    holds(arrived(*reading, {day}).is_ready(), "whole statements are at fault");
    // Cut, out of range, terms that no file may state, another total, a line lost, the mark of the other form.
    halves_are_at_fault(in, {cut(same, 48), bytes_of("PT"), with(same, 2, 40'000, 4), with(same, 6, 96, 1),
                             with(same, 35, 40, 1), with(same, 36, 0, 2), with(same, 42, 1'001, 2),
                             with(same, 48, 2, 1), with(same, 11, 1 + same[11], 1), cut(same, same.size() - 42),
                             with(same, 1, 'S', 1), with(statement_of(bytes_at(in / "9")), 1, 'T', 1)});
    const Bytes longest = drawer.stated_interval(day, 70, 256);
    put(in / "70", longest);
    put(in / "long", statement_of(longest));
    equal(statement_of(longest).size(), most_bytes - 1);
    equal(english(file_named(read_now(in), "long").says), "The same as worked out now.");
}

// Both amounts are told.
void an_old_statement_is_told(const fs::path &examples) {
    const fs::path in = folder();
    const Bytes interval = for_slot(bytes_at(examples / "x.interval"), day, 9);
    const Bytes correction = for_slot(bytes_at(examples / "x.correction"), day, 9);
    put(in / "h", interval);
    put(in / "k", correction);
    put(in / "booked", statement_of(interval));
    put(in / "other.statement", statement_of(for_slot(interval, 5, 1), for_slot(correction, 5, 1)));
    put(in / "h5", for_slot(interval, 5, 1));
    const ReadIn reading = read_now(in);
    const auto told = outdated(*reading, Day{day}, {3});
    equal(told.size(), 2u);
    const Fen now = reading->at({{day}, {9}}).statement->of({3})->net();
    equal(english(told[0]), "booked is a statement of another time for 2026-10-31 02:15–02:30. By it Row 3 pays 250.00 "
                            "yuan; now it pays " +
                                text(-now) + " yuan. Somebody may have booked it.");
    equal(english(told[1]), "Of other days 1 statement in the folder differs from the one of now.");
    equal(english(*outdated(*reading, Slot{{day}, {9}}, {3})), english(told[0]));
    holds(!outdated(*reading, Slot{{day}, {10}}, {3}), "of another quarter");
    holds(chinese(outdated(*reading, Day{day}, {77})[0]).find("不在文件中") != std::string::npos,
          "a row that is nowhere");
}

// An interval file is replaced by one with other terms: the statement of before is told with both amounts, and both
// terms. By hand: interval X under 45 percent is 650.00 yuan by 21,250 kWh, of which row 3 has 5,000: 152.94 yuan.
void an_interval_file_with_other_terms(const fs::path &examples) {
    const fs::path in = folder();
    const Bytes plain = for_slot(bytes_at(examples / "x.interval"), day, 9);
    const Bytes stated = made::stating(made::other_terms, plain);
    const std::string issued =
        "baseline 50 percent of full load; bids from 0.100 to 0.320 yuan for each kWh in tier 1, "
        "from 0.320 to 0.750 in tier 2";
    const std::string other = "baseline 45 percent of full load; bids from 0.150 to 0.300 yuan for each kWh in tier 1, "
                              "from 0.350 to 0.650 in tier 2";
    const auto told = [&](const Bytes &then, const Bytes &now) {
        put(in / "h", now);
        put(in / "booked", statement_of(then));
        return outdated(*read_now(in), Slot{{day}, {9}}, {3}).value();
    };
    equal(english(told(plain, stated)),
          "booked is a statement of another time for 2026-10-31 02:15–02:30. By it Row 3 pays 250.00 yuan; now it pays "
          "152.94 yuan. Somebody may have booked it. Its interval file was replaced by one with other terms (Article "
          "64). "
          "Then: " +
              issued + ". Now: " + other + ".");
    equal(english(told(stated, plain)),
          "booked is a statement of another time for 2026-10-31 02:15–02:30. By it Row 3 pays 152.94 yuan; now it pays "
          "250.00 yuan. Somebody may have booked it. Its interval file was replaced by one with other terms (Article "
          "64). "
          "Then: " +
              other + ". Now: " + issued + ".");
    equal(chinese(told(plain, stated)),
          "booked 是 2026-10-31 02:15–02:30 的旧结算单：编号 3当时支付 250.00 元，现在支付 152.94 "
          "元。可能已有人据此入账。"
          "其时段文件已换成基准和限价不同的文件（第六十四条）。当时：有偿调峰基准为额定容量的 50%；报价下限至上限："
          "第一档 0.100 至 0.320 元/kWh，第二档 0.320 至 0.750 元/kWh。现在：有偿调峰基准为额定容量的 45%；"
          "报价下限至上限：第一档 0.150 至 0.300 元/kWh，第二档 0.350 至 0.650 元/kWh。");
    // Terms as issued are the same terms, stated or not; the statement is another one all the same.
    equal(english(told(plain, made::stating(issued_terms, plain))),
          "booked is a statement of another time for 2026-10-31 02:15–02:30. By it Row 3 pays 250.00 yuan; now it pays "
          "250.00 yuan. Somebody may have booked it.");
}

// A statement of another time by which the thermal average ruled, and now it does not, and the reverse: told with both
// amounts. Interval X, and its rows without wind, under the terms as issued.
void an_average_of_another_time() {
    const fs::path in = folder();
    const Slot at{{day}, {9}};
    const Bytes windy = made::interval(at), still = made::interval(at, 1'300, made::rows_without_wind());
    const auto told = [&](const Bytes &then, const Bytes &now) {
        put(in / "h", now);
        put(in / "booked", statement_of(then));
        return outdated(*read_now(in), at, {2}).value();
    };
    equal(
        english(told(still, windy)),
        "booked is a statement of another time for 2026-10-31 02:15–02:30. By it Row 2 pays 390.00 yuan; now it pays "
        "650.00 yuan. Somebody may have booked it. Before, the thermal average ruled in the baseline's place, and now "
        "it does not (Article 22).");
    equal(english(told(windy, still)),
          "booked is a statement of another time for 2026-10-31 02:15–02:30. By it Row 2 pays 650.00 yuan; now it pays "
          "390.00 yuan. Somebody may have booked it. Now the thermal average rules in the baseline's place, and before "
          "it did not (Article 22).");
    equal(chinese(told(windy, still)), "booked 是 2026-10-31 02:15–02:30 的旧结算单：编号 2当时支付 650.00 "
                                       "元，现在支付 390.00 元。可能已有人据此入账。"
                                       "现有偿调峰基准临时调整为火电机组平均负荷率，原先未调整（第二十二条）。");
    // The number alone is another: a whole statement, and not that of now.
    put(in / "h", still);
    put(in / "booked", with(statement_of(still), 39, 0, 1));
    equal(english(outdated(*read_now(in), at, {2}).value()),
          "booked is a statement of another time for 2026-10-31 02:15–02:30. By it Row 2 pays 390.00 yuan; now it pays "
          "390.00 yuan. Somebody may have booked it. Now the thermal average rules in the baseline's place, and before "
          "it did not (Article 22).");
    put(in / "booked", with(statement_of(still), 39, 2, 1));
    equal(english(file_named(read_now(in), "booked").says),
          "It begins as a statement and is none that is whole. It may be a correction that was damaged.");
}

// ---- names of plants ----

void plants_are_named() {
    Drawer drawer(9);
    const fs::path in = whole_day(drawer);
    put(in / "plants.csv", bytes_of("1,一厂,One\n2,二厂,Two\n"));
    ReadIn reading = read_now(in);
    equal(reading->names.of({2}, Tongue::english), "Two");
    equal(english(file_named(reading, "plants.csv").says), "Names of 2 rows.");
    holds(arrived(*reading, {day}).is_ready(), "names are at fault");
    equal(english(plant_name(*reading, {3})), "Row 3");
    equal(chinese(plant_name(*reading, {3})), "编号 3");
    equal(english(plant_name(*reading, {1})), "One (row 1)");
    equal(chinese(plant_name(*reading, {1})), "一厂（编号 1）");
    // A line of no use is a blemish of a file that is known.
    put(in / "plants.csv", bytes_of("1,一厂,One\nx, and more\n"));
    reading = read_now(in);
    equal(english(file_named(reading, "plants.csv").says), "The name of 1 row. 1 line was passed over.");
    equal(chinese(file_named(reading, "plants.csv").says), "共 1 个编号的名称。有 1 行未采用。");
    holds(file_named(reading, "plants.csv").fault == Fault::blemish, "nobody is told");
    holds(arrived(*reading, {day}).is_ready(), "a line of names keeps a day from being booked");
    // Shorter than a head it is known only if all of it names rows.
    put(in / "plants.csv", bytes_of("1,A,B\n"));
    equal(file_named(read_now(in), "plants.csv").form, Form::names);
    put(in / "plants.csv", bytes_of("1,A\n"));
    equal(file_named(read_now(in), "plants.csv").form, Form::unknown);
    // Longer than is read: the last line that is read is half a line.
    std::string text;
    while (text.size() < 300'000) {
        text += std::to_string(1 + text.size() % 60'000) + ",厂,a name\n";
    }
    put(in / "plants.csv", bytes_of(text));
    holds(english(file_named(read_now(in), "plants.csv").says).ends_with("longer than 256 KB; the rest was not read."),
          "");
    // Only in the folder itself.
    fs::create_directory(in / "sub");
    fs::rename(in / "plants.csv", in / "sub" / "plants.csv");
    equal(file_named(read_now(in), "sub/plants.csv").form, Form::text);
    // A correction of that name is a correction.
    put(in / "plants.csv", drawer.correction(bytes_at(in / "9")));
    equal(file_named(read_now(in), "plants.csv").form, Form::correction);
}

} // namespace

int main(int argc, char **argv) {
    if (argc != 2) {
        std::cerr << "accounting_test EXAMPLES\n";
        return 2;
    }
    signatures();
    zip_or_correction();
    texts();
    nothing_of_ours();
    an_accountants_folder();
    one_file_for_all_days();
    many_files();
    what_names_say();
    named_otherwise();
    the_quarter_says_so();
    statements_are_compared();
    statements_with_terms();
    an_old_statement_is_told(argv[1]);
    an_interval_file_with_other_terms(argv[1]);
    an_average_of_another_time();
    plants_are_named();
    return check::passed("accounting");
}
