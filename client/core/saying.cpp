#include "saying.h"

#include "named.h"
#include "rules.h"

#include <algorithm>
#include <iterator>
#include <numeric>

namespace client {

namespace {

using What = Obstacle::What;

Said entry(const Refused &refused, Word plain, Word with_id) {
    const std::string place = std::to_string(refused.refusal.place);
    return refused.id ? Said(with_id, {place, std::to_string(refused.id->number)}) : Said(plain, {place});
}

Said within(const Refused &refused) {
    return entry(refused, Word::refusal_entry, Word::refusal_entry_id);
}

Said at_first(const Refused &refused) {
    return entry(refused, Word::refusal_entry_first, Word::refusal_entry_first_id);
}

// The words of a number, without it; none where it came later than these words.
std::optional<Said> words_of_check(const Refused &refused) {
    switch (refused.refusal.number) {
    case 1:
        return Word::refusal_1;
    case 2:
        return Word::refusal_2;
    case 3:
        return Word::refusal_3;
    case 4:
        return Word::refusal_4;
    case 5:
        return Said(Word::refusal_5, {at_first(refused)});
    case 6:
        return Said(Word::refusal_6, {within(refused)});
    case 7:
        return Said(Word::refusal_7, {within(refused)});
    case 8:
        return refused.refusal.place == 0 ? Said(Word::refusal_8) : Said(Word::refusal_8_entry, {within(refused)});
    case 9:
        return Word::refusal_9;
    case 10:
        return Said(Word::refusal_10, {at_first(refused)});
    case 11:
        return Word::refusal_11;
    case 14:
        return Word::refusal_14;
    default:
        return std::nullopt;
    }
}

} // namespace

Said sentences(Said one, Said other) {
    return {Word::listing_sentences, {std::move(one), std::move(other)}};
}

Said reason(const Obstacle &obstacle) {
    switch (obstacle.what) {
    case What::absent:
        return Word::unread_absent;
    case What::permission:
        return Word::unread_permission;
    case What::link:
        return Word::unread_link;
    case What::pipe:
        return Word::unread_pipe;
    case What::socket:
        return Word::unread_socket;
    case What::device:
        return Word::unread_device;
    case What::inner_folder:
        return Word::unread_folder;
    case What::no_folder:
        return Word::unread_no_folder;
    case What::system:
        break;
    }
    return {Word::unread_system, {std::to_string(obstacle.number)}};
}

Said advice(const Obstacle &obstacle) {
    switch (obstacle.what) {
    case What::permission:
        return Word::advice_permission;
    case What::link:
    case What::pipe:
    case What::socket:
    case What::device:
        return Word::advice_plain_file;
    case What::inner_folder:
        return Word::advice_move_up;
    default:
        return Word::advice_look_again;
    }
}

// "a, b, c", and how many more where there are many.
Said list(const std::vector<File> &files, const Places &places) {
    const std::size_t named = std::min(places.size(), most_named);
    Said all{Word::listing_one, {files[places[0]].name}};
    for (std::size_t i = 1; i < named; ++i) {
        all = {Word::listing_several, {all, files[places[i]].name}};
    }
    if (places.size() > named) {
        all = {Word::listing_more, {all, std::to_string(places.size() - named)}};
    }
    return all;
}

// The different files among some: those that are no copies.
Places originals(const std::vector<File> &files, const Places &places) {
    Places found;
    std::copy_if(places.begin(), places.end(), std::back_inserter(found),
                 [&](std::size_t place) { return !files[place].same_as; });
    return found;
}

Said contradiction(const std::vector<File> &files, const Places &places) {
    const Places different = originals(files, places);
    const Places first(different.begin(), different.end() - 1);
    const Word word = different.size() == 2 ? Word::state_two : Word::state_several;
    return {word, {list(files, first), files[different.back()].name}};
}

namespace {

// The terms under which an interval file would be settled; none where its head is cut, or states some that are not
// allowed.
std::optional<Terms> terms_of(const File &file) {
    const auto form = form_of(file.bytes);
    if (!form || file.bytes.size() < form->head) {
        return std::nullopt;
    }
    const Terms terms = rules_of(file.bytes).terms;
    return are_allowed(terms) ? std::optional(terms) : std::nullopt;
}

// Two interval files or more for one quarter. Two with other terms are hardly two copies: whoever has to take one away
// is told both.
Said contradiction_of_intervals(const std::vector<File> &files, const Places &places) {
    const Said differ = contradiction(files, places);
    const Places different = originals(files, places);
    const File &one = files[different[0]], &other = files[different[1]];
    const auto first = terms_of(one), second = terms_of(other);
    if (different.size() != 2 || !first || !second || first == second) {
        return differ;
    }
    return sentences(differ, {Word::state_two_terms, {one.name, in_words(*first), other.name, in_words(*second)}});
}

} // namespace

std::optional<Said> hindrance(const Reading &reading, const QuarterRead &quarter) {
    switch (quarter.state) {
    case State::missing:
        return quarter.named.empty() ? Said(Word::state_missing)
                                     : Said(Word::state_missing_named, {list(reading.files, quarter.named)});
    case State::two_intervals:
        return contradiction_of_intervals(reading.files, quarter.intervals);
    case State::two_corrections:
        return contradiction(reading.files, quarter.corrections);
    case State::arriving:
        return Word::state_arriving;
    case State::refused: {
        const File &file = reading.files.at(quarter.refused->file);
        const Said words = refusal_words(*quarter.refused);
        return file.form == Form::correction ? Said(Word::state_refused_correction, {words})
                                             : Said(Word::state_refused, {file.name, words});
    }
    case State::settled:
    case State::corrected:
        break;
    }
    return std::nullopt;
}

std::optional<Said> reservation(const Reading &reading) {
    Places open(reading.unaccounted());
    std::iota(open.begin(), open.end(), std::size_t{0});
    if (open.empty()) {
        return std::nullopt;
    }
    const Said names = list(reading.files, open);
    return Said(open.size() == 1 ? Word::reservation_one : Word::reservation_several, {names});
}

std::optional<Said> reservation(const Reading &reading, const QuarterRead &quarter) {
    const auto of_folder = reservation(reading);
    // A quarter without a statement tells of the files that are named for it where it says that it has none.
    if (!of_folder || quarter.named.empty() || !quarter.statement) {
        return of_folder;
    }
    return sentences({Word::reservation_named, {list(reading.files, quarter.named)}}, *of_folder);
}

Said refusal_words(const Refused &refused) {
    const std::string number = std::to_string(refused.refusal.number);
    if (const auto words = words_of_check(refused)) {
        return {Word::refusal, {number, *words}};
    }
    return {Word::refusal_later, {number, std::to_string(refused.refusal.place)}};
}

Said refusal_advice(const Refusal &refusal) {
    switch (refusal.number) {
    case 1:
    case 4:
    case 5:
        return Word::advice_again;
    case 2:
        return Word::advice_right_file;
    case 3:
    case 14:
        return Word::advice_sender;
    case 6:
        return Word::advice_sender_row;
    case 7:
        return Word::advice_sort;
    case 8:
        return Word::advice_correction_again;
    case 9:
    case 11:
        return Word::advice_report;
    case 10:
        return Word::advice_centre;
    default:
        return Word::advice_newer;
    }
}

Word name_of(State state) {
    constexpr std::array names{Word::named_missing,  Word::named_two_intervals, Word::named_two_corrections,
                               Word::named_arriving, Word::named_refused,       Word::named_settled,
                               Word::named_corrected};
    return names.at(static_cast<std::size_t>(state));
}

Word name_of(Form form) {
    constexpr std::array names{Word::form_interval, Word::form_correction, Word::form_statement, Word::form_coming,
                               Word::form_names,    Word::form_exported,   Word::form_text,      Word::form_pdf,
                               Word::form_picture,  Word::form_archive,    Word::form_empty,     Word::form_unknown,
                               Word::form_unread};
    return names.at(static_cast<std::size_t>(form));
}

Word name_of(const File &file) {
    if (!states_terms(file.bytes)) {
        return name_of(file.form);
    }
    return file.form == Form::interval    ? Word::form_interval_stated
           : file.form == Form::statement ? Word::form_statement_stated
                                          : name_of(file.form);
}

} // namespace client
