#include "judging.h"

#include "naming.h"
#include "recognising.h"
#include "saying.h"
#include "wheatrudder.h"

#include <algorithm>
#include <numeric>
#include <tuple>

namespace client {

namespace {

// An interval file without rows that is accepted: day 0, quarter 0, tariff 1, need 0. Beside it a correction that
// belongs to no quarter is judged as a correction; it is refused by its head, so no terms are asked for.
constexpr std::array<std::uint8_t, ph_form.head> no_rows{'P', 'H', 0, 0, 0, 0, 0, 1, 0, 0, 0, 0, 0, 0, 0};

bool has_slot(Form form) {
    return form == Form::interval || form == Form::correction || form == Form::statement;
}

// Whether a file takes part in settling a quarter.
bool is_of_quarter(const File &file) {
    return file.slot && (file.form == Form::interval || file.form == Form::correction);
}

// Whether a file was written less than arriving_for ago. A time in the future tells nothing.
bool is_fresh(const Stamp &stamp) {
    const auto now = std::chrono::system_clock::now();
    return is_before(stamp.written, now) && !is_before(stamp.written, now - arriving_for);
}

// What is to be said of a file that is accounted for.
void account_for(File &file, Said says) {
    file.says = std::move(says);
    file.advice.reset();
    file.fault = Fault::none;
}

// What is to be said of one that is at fault, and what to do.
void blame(File &file, Said says, Said to_do, Fault fault = Fault::unaccounted) {
    file.says = std::move(says);
    file.advice = std::move(to_do);
    file.fault = fault;
}

// The id of the entry at a place, counted from 1, where the bytes reach so far.
std::optional<RowId> id_at(View bytes, unsigned place) {
    const auto form = form_of(bytes);
    if (!form || place == 0 || form->length(place) > bytes.size()) {
        return std::nullopt;
    }
    return RowId{wheatrudder_u16(bytes.data() + form->length(place - 1) + 2)};
}

std::string_view as_text(View bytes) {
    return {reinterpret_cast<const char *>(bytes.data()), bytes.size()};
}

// Makes of the files that were read what a reading says of them.
class Judge {
  public:
    explicit Judge(Reading &reading) : reading_(reading), files_(reading.files) {}

    // False where somebody asked to stop.
    bool judge(const std::stop_token &stop);

  private:
    void place_files();
    void look_at(QuarterRead &quarter);
    void settle_pair(QuarterRead &quarter, std::size_t interval, std::optional<std::size_t> correction);
    void accept(QuarterRead &quarter, Statement statement, std::size_t interval, std::optional<std::size_t> correction);
    void refuse(QuarterRead &quarter, const Refusal &refusal, std::size_t interval,
                std::optional<std::size_t> correction);
    void wait_for(QuarterRead &quarter, std::size_t interval, std::optional<std::size_t> correction);
    Places different(Places &places);
    void set_against(const Places &places);
    void put_aside(const Places &places, const Places &because_of);
    void judge_alone(std::size_t place);
    void judge_nowhere(File &file);
    void compare(std::size_t place);
    void take_names(File &file);
    void hold_against_name(std::size_t place);
    void put_in_order();

    Reading &reading_;
    std::vector<File> &files_;
};

bool Judge::judge(const std::stop_token &stop) {
    place_files();
    for (auto &[day, quarters] : reading_.days) {
        for (QuarterRead &quarter : quarters) {
            if (stop.stop_requested()) {
                return false;
            }
            look_at(quarter);
        }
    }
    for (std::size_t place = 0; place < files_.size(); ++place) {
        reading_.arriving |= files_[place].form != Form::unread && !files_[place].steady;
        judge_alone(place);
        hold_against_name(place);
    }
    put_in_order();
    return true;
}

void Judge::place_files() {
    for (std::size_t place = 0; place < files_.size(); ++place) {
        const File &file = files_[place];
        if (is_of_quarter(file)) {
            QuarterRead &quarter = reading_.days[file.slot->day][file.slot->quarter.number];
            (file.form == Form::interval ? quarter.intervals : quarter.corrections).push_back(place);
        }
    }
}

// The different ones of some files. An equal copy is told so, and comes after them; only files that were read to their
// ends are known to be equal.
Places Judge::different(Places &places) {
    if (places.size() < 2) {
        return places;
    }
    std::map<std::string_view, std::size_t> whole;
    Places found, copies;
    for (const std::size_t place : places) {
        File &file = files_[place];
        const auto [held, is_new] =
            file.whole ? whole.try_emplace(as_text(file.bytes), place) : std::pair{whole.end(), true};
        if (is_new) {
            found.push_back(place);
            continue;
        }
        copies.push_back(place);
        file.same_as = held->second;
        account_for(file, {Word::file_double, {files_[held->second].name}});
    }
    places = found;
    places.insert(places.end(), copies.begin(), copies.end());
    return found;
}

void Judge::set_against(const Places &places) {
    const Places some(places.begin(),
                      places.begin() + static_cast<std::ptrdiff_t>(std::min(places.size(), most_named + 2)));
    for (const std::size_t place : places) {
        Places others;
        std::copy_if(some.begin(), some.end(), std::back_inserter(others),
                     [&](std::size_t other) { return other != place; });
        blame(files_[place], {Word::file_two, {list(files_, others)}}, Word::advice_take_away);
    }
}

// Files that nothing is wrong with, but whose quarter has no statement.
void Judge::put_aside(const Places &places, const Places &because_of) {
    for (const std::size_t place : places) {
        account_for(files_[place], {Word::file_waits, {list(files_, because_of)}});
    }
}

void Judge::look_at(QuarterRead &quarter) {
    const Places intervals = different(quarter.intervals);
    const Places corrections = different(quarter.corrections);
    if (intervals.empty()) {
        for (const std::size_t place : corrections) {
            blame(files_[place], Word::file_alone, Word::advice_interval);
        }
    } else if (intervals.size() > 1) {
        quarter.state = State::two_intervals;
        set_against(intervals);
        corrections.size() > 1 ? set_against(corrections) : put_aside(corrections, intervals);
    } else if (corrections.size() > 1) {
        quarter.state = State::two_corrections;
        set_against(corrections);
        put_aside(intervals, corrections);
    } else {
        settle_pair(quarter, intervals[0], corrections.empty() ? std::nullopt : std::optional(corrections[0]));
    }
}

void Judge::settle_pair(QuarterRead &quarter, std::size_t interval, std::optional<std::size_t> correction) {
    if (!files_[interval].steady || (correction && !files_[*correction].steady)) {
        wait_for(quarter, interval, correction);
        return;
    }
    // A correction has at least its mark, so no empty file is handed over here.
    const View corrected = correction ? View(files_[*correction].bytes) : View();
    auto answer = settle(files_[interval].bytes, corrected);
    if (const auto *refusal = std::get_if<Refusal>(&answer)) {
        refuse(quarter, *refusal, interval, correction);
    } else {
        accept(quarter, std::get<Statement>(std::move(answer)), interval, correction);
    }
}

void Judge::wait_for(QuarterRead &quarter, std::size_t interval, std::optional<std::size_t> correction) {
    quarter.state = State::arriving;
    Places pair{interval}, moving, resting;
    if (correction) {
        pair.push_back(*correction);
    }
    std::partition_copy(pair.begin(), pair.end(), std::back_inserter(resting), std::back_inserter(moving),
                        [&](std::size_t place) { return files_[place].steady; });
    for (const std::size_t place : moving) {
        blame(files_[place], Word::file_moving, Word::advice_wait);
    }
    put_aside(resting, moving);
}

void Judge::accept(QuarterRead &quarter, Statement statement, std::size_t interval,
                   std::optional<std::size_t> correction) {
    quarter.state = correction ? State::corrected : State::settled;
    quarter.statement = std::move(statement);
    account_for(files_[interval], Word::file_counts);
    if (!correction) {
        return;
    }
    account_for(files_[*correction], Word::file_counts);
    auto before = settle(files_[interval].bytes, {});
    if (auto *found = std::get_if<Statement>(&before)) {
        quarter.before = std::move(*found);
    }
}

// 8 to 10 are about the correction, every other number about the interval file.
void Judge::refuse(QuarterRead &quarter, const Refusal &refusal, std::size_t interval,
                   std::optional<std::size_t> correction) {
    const bool is_correction = correction && refusal.number >= 8 && refusal.number <= 10;
    const std::size_t at_fault = is_correction ? *correction : interval;
    File &file = files_[at_fault];
    quarter.refused = Refused{refusal, at_fault, id_at(file.bytes, refusal.place)};
    // An entry may fit no row because the interval file is the one that is still arriving.
    const bool is_arriving = file.fresh || (refusal.number == 10 && files_[interval].fresh);
    quarter.state = is_arriving ? State::arriving : State::refused;
    const Said words = refusal_words(*quarter.refused);
    blame(file, file.fresh ? sentences(Word::file_arriving, words) : words,
          is_arriving ? Said(Word::advice_wait) : refusal_advice(refusal));
    if (correction) {
        put_aside({is_correction ? interval : *correction}, {at_fault});
    }
}

// What is to be said of a file that no quarter has looked at.
void Judge::judge_alone(std::size_t place) {
    File &file = files_[place];
    if (file.form == Form::unread || is_of_quarter(file)) {
        return;
    }
    if (!file.steady) {
        blame(file, Word::file_moving, Word::advice_wait);
        return;
    }
    switch (file.form) {
    case Form::interval:
    case Form::correction:
    case Form::empty:
    case Form::unknown:
        judge_nowhere(file);
        return;
    case Form::coming:
        blame(file, Word::file_coming, Word::advice_newer);
        return;
    case Form::statement:
        compare(place);
        return;
    case Form::names:
        take_names(file);
        return;
    case Form::exported:
        account_for(file, Word::file_exported);
        return;
    case Form::text:
    case Form::pdf:
    case Form::picture:
    case Form::archive:
        account_for(file, Word::file_other);
        return;
    case Form::unread:
        return;
    }
}

// A file that names no quarter: unknown, empty, cut within its head, or with a head out of range.
void Judge::judge_nowhere(File &file) {
    reading_.arriving |= file.fresh;
    if (file.form == Form::empty) {
        blame(file, Word::file_empty, file.fresh ? Word::advice_wait : Word::advice_empty);
        return;
    }
    if (file.form == Form::unknown) {
        blame(file, Word::file_unknown, file.fresh ? Word::advice_wait : Word::advice_unknown);
        return;
    }
    const bool is_correction = file.form == Form::correction;
    const auto answer = is_correction ? settle(no_rows, file.bytes) : settle(file.bytes, {});
    const auto *refusal = std::get_if<Refusal>(&answer);
    const Said why = refusal ? refusal_words({*refusal, 0, std::nullopt}) : Said(Word::file_unknown);
    blame(file, {Word::file_nowhere, {why}}, file.fresh ? Word::advice_wait : Word::advice_again);
}

// A statement of another time is no fault: somebody may have booked it, and is told.
void Judge::compare(std::size_t place) {
    File &file = files_[place];
    if (!file.whole || !is_whole_statement(file.bytes)) {
        reading_.arriving |= file.fresh;
        blame(file, Word::file_half_statement, file.fresh ? Word::advice_wait : Word::advice_empty);
        return;
    }
    const auto &statement = reading_.at(*file.slot).statement;
    if (!statement) {
        account_for(file, Word::file_incomparable);
        return;
    }
    const View now = statement->bytes();
    const bool is_same = std::equal(now.begin(), now.end(), file.bytes.begin(), file.bytes.end());
    account_for(file, is_same ? Word::file_same : Word::file_old);
    if (!is_same) {
        reading_.outdated.push_back(place);
    }
}

void Judge::take_names(File &file) {
    View bytes = file.bytes;
    if (!file.whole) {
        // The last line may be half a line.
        const auto last_end = std::find(bytes.rbegin(), bytes.rend(), '\n');
        bytes = bytes.first(static_cast<std::size_t>(bytes.rend() - last_end));
    }
    reading_.names = Names(bytes);
    const std::size_t passed = reading_.names.passed_over();
    Said says = counted(reading_.names.size(), Word::file_names_one, Word::file_names, {});
    if (passed > 0) {
        says = counted(passed, Word::file_names_passed_one, Word::file_names_passed, {says});
    }
    if (!file.whole) {
        says = {Word::file_names_cut, {says}};
    }
    const bool is_blemished = passed > 0 || !file.whole;
    is_blemished ? blame(file, says, Word::advice_lines, Fault::blemish) : account_for(file, says);
}

// Whether a file is what its name says. An interval file that could not be read may well be one.
bool is_as_named(const File &file, const Naming &naming) {
    constexpr std::array forms{Form::interval, Form::correction, Form::statement};
    const bool is_other_form = naming.as && file.form != forms.at(static_cast<std::size_t>(*naming.as));
    const bool is_other_slot = file.slot && std::any_of(naming.slots.begin(), naming.slots.end(),
                                                        [&](const Slot &slot) { return slot != *file.slot; });
    return file.form == Form::unread || (!is_other_form && !is_other_slot);
}

// "2026-10-31 03:00–03:15", "an interval file", or both.
Said name_says(const Naming &naming) {
    constexpr std::array forms{Word::named_as_interval, Word::named_as_correction, Word::named_as_statement};
    if (!naming.as) {
        return {Word::named_as_slot, {text(naming.slots.front())}};
    }
    const Said form = forms.at(static_cast<std::size_t>(*naming.as));
    return naming.slots.empty() ? form : Said(Word::named_as_both, {form, text(naming.slots.front())});
}

// Names decide nothing, but a file that is not what its name says is at fault, and the quarter that it is named for
// tells of it, as it does of any other file at fault that is named for it.
void Judge::hold_against_name(std::size_t place) {
    File &file = files_[place];
    const Naming naming = naming_of(file.path);
    if (!is_as_named(file, naming)) {
        blame(file, {Word::file_misnamed, {name_says(naming), file.says}},
              file.is_faulty() ? *file.advice : Said(Word::advice_misnamed));
    }
    if (file.fault != Fault::unaccounted) {
        return;
    }
    for (const Slot &slot : naming.slots) {
        const bool is_known_there = is_of_quarter(file) && file.slot == slot;
        if (!is_known_there) {
            reading_.days[slot.day][slot.quarter.number].named.push_back(place);
        }
    }
}

int rank(const File &file) {
    switch (file.fault) {
    case Fault::unaccounted:
        return file.form == Form::unread ? 0 : 1;
    case Fault::blemish:
        return 2;
    case Fault::none:
        break;
    }
    if (is_of_quarter(file)) {
        return file.same_as ? 4 : 3;
    }
    return file.form == Form::statement || file.form == Form::names ? 4 : 5;
}

// Every place in the reading is moved along with its file.
void Judge::put_in_order() {
    Places order(files_.size());
    std::iota(order.begin(), order.end(), 0);
    const auto key = [&](std::size_t place) {
        const File &file = files_[place];
        return std::tuple(rank(file), !file.slot, file.slot.value_or(Slot{}), file.form, place);
    };
    std::sort(order.begin(), order.end(), [&](std::size_t one, std::size_t other) { return key(one) < key(other); });
    std::vector<File> sorted;
    sorted.reserve(files_.size());
    Places now_at(files_.size());
    for (const std::size_t place : order) {
        now_at[place] = sorted.size();
        sorted.push_back(std::move(files_[place]));
    }
    files_ = std::move(sorted);
    const auto move = [&](std::size_t &place) { place = now_at[place]; };
    for (File &file : files_) {
        file.same_as = file.same_as ? std::optional(now_at[*file.same_as]) : std::nullopt;
    }
    std::for_each(reading_.outdated.begin(), reading_.outdated.end(), move);
    std::sort(reading_.outdated.begin(), reading_.outdated.end());
    for (auto &[day, quarters] : reading_.days) {
        for (QuarterRead &quarter : quarters) {
            std::for_each(quarter.intervals.begin(), quarter.intervals.end(), move);
            std::for_each(quarter.corrections.begin(), quarter.corrections.end(), move);
            std::for_each(quarter.named.begin(), quarter.named.end(), move);
            if (quarter.refused) {
                move(quarter.refused->file);
            }
            reading_.arriving |= quarter.state == State::arriving;
        }
    }
}

} // namespace

// A file by its path within the folder.
File file_at(const std::string &path) {
    File file;
    file.name = shown(path);
    file.path = path;
    return file;
}

File unread(File file, const Obstacle &obstacle) {
    file.form = Form::unread;
    file.obstacle = obstacle;
    file.says = {Word::file_unread, {reason(obstacle)}};
    file.advice = advice(obstacle);
    return file;
}

File read(File file, Content content) {
    const bool is_read_to_its_end = content.bytes.size() < most_of(file.path);
    file.form = recognised(file.path, content, is_read_to_its_end);
    file.bytes = std::move(content.bytes);
    file.bytes.shrink_to_fit();
    file.slot = has_slot(file.form) ? slot_by_head(file.bytes) : std::nullopt;
    file.stamp = content.stamp;
    file.steady = content.steady;
    file.whole = content.steady && is_read_to_its_end;
    file.fresh = is_fresh(content.stamp);
    return file;
}

bool judge(Reading &reading, const std::stop_token &stop) {
    return Judge(reading).judge(stop);
}

} // namespace client
