#include "steps.h"

#include "phrases.h"

namespace client {

void Steps::say(Word word, std::vector<Hole> holes) {
    all_.push_back({Said(word, std::move(holes)), {}});
}

void Steps::say(Word word, std::vector<Hole> holes, std::string yuan) {
    all_.push_back({Said(word, std::move(holes)), std::move(yuan)});
}

void Steps::end(Word word, std::vector<Hole> holes, Fen amount) {
    all_.push_back({Said(word, std::move(holes)), text(amount), true});
}

void Steps::tell() {
    terms();
    average();
    role();
    switch (role_here()) {
    case Role::payer:
        share();
        break;
    case Role::receiver:
        compensation();
        break;
    case Role::bystander:
        break;
    }
    if (is_liable(row())) {
        penalty();
    }
    result();
}

// A file that states the terms as issued is explained as one that states none.
void Steps::terms() {
    if (rules().terms != issued_terms) {
        say(Word::terms_moved, {in_words(rules().terms)});
    }
}

// Who takes no part whatever it produced is not told its own part of the average.
void Steps::average() {
    if (!rules().average) {
        return;
    }
    const Average &all = *rules().average;
    const std::string energy = text(all.energy), capacity = text(all.capacity);
    const Row together{{}, Kind::thermal, all.capacity, all.energy, Status::normal};
    say(Word::average_why, {text(rules().need), std::to_string(rules().terms.baseline)});
    say(Word::average_all, {energy, capacity, load_of(together, 0, 3)});
    if (row().kind == Kind::thermal && row().status != Status::accident) {
        say(Word::average_row, {text(row().capacity), energy, capacity, cut_to_kwh(all, row())});
    }
}

void Steps::role() {
    const std::vector<Hole> load_of_unit{load_of(row(), 0, 3), text(row().metered), baseline(row(), rules())};
    const bool is_thermal = row().kind == Kind::thermal;
    switch (role_here()) {
    case Role::payer:
        return is_thermal ? say(ruled(Word::role_thermal_pays, Word::role_thermal_pays_average), load_of_unit)
                          : say(Word::role_renewable_pays, {Said(kind_word(row().kind))});
    case Role::receiver:
        return say(ruled(Word::role_thermal_gets, Word::role_thermal_gets_average), load_of_unit);
    case Role::bystander:
        break;
    }
    const Said status = status_word(row().status);
    if (is_thermal && row().status != Status::accident) {
        std::vector<Hole> holes = load_of_unit;
        holes.emplace_back(status);
        return say(ruled(Word::role_thermal_low, Word::role_thermal_low_average), holes);
    }
    say(Word::role_none, {Said(kind_word(row().kind)), status});
}

void Steps::leftover(const Sharing &sharing, Word gets_one_more) {
    const Part *part = sharing.part_of(position_);
    if (part == nullptr || part->remainder == 0) {
        return;
    }
    const std::string share = text(Fen{part->share()});
    const Said outcome(part->gets_one_more ? gets_one_more : Word::fen_stays, {share});
    const std::string quota = text(Fen{part->quota});
    const std::string rank = text(static_cast<std::int64_t>(part->rank) + 1);
    const std::string of = text(static_cast<std::int64_t>(sharing.parts.size()));
    if (sharing.left == 1) {
        say(Word::fen_one, {quota, rank, of, outcome}, share);
    } else {
        say(Word::fen, {quota, text(sharing.left), rank, of, outcome}, share);
    }
    if (sharing.is_decided_by_turn(*part)) {
        say(Word::fen_turn, {called_within(quarter_.rows[quarter_.turns.first()].id, name_of_)});
    }
}

void Steps::result() {
    const Line &is = line();
    if (is.penalty > Fen{0}) {
        return result_with_penalty();
    }
    if (is.cut > Fen{0}) {
        return end(Word::result_kept, {text(is.compensation), text(is.cut), text(is.net())}, is.net());
    }
    if (is.compensation > Fen{0}) {
        return end(Word::result_gets, {text(is.net())}, is.net());
    }
    if (is.paid == Fen{0}) {
        return end(Word::result_nothing, {}, Fen{0});
    }
    if (is.closing > 0) {
        return end(Word::result_pays, {text(is.paid)}, is.paid);
    }
    end(Word::result_below, {text(is.paid), text(is.cap)}, is.paid);
}

void Steps::result_with_penalty() {
    const Line &is = line();
    const std::string paid = text(is.paid), penalty = text(is.penalty), returned = text(is.returned);
    const Fen owed = -is.net();
    const bool is_less = is.returned > Fen{0};
    if (is.paid > Fen{0}) {
        return is_less ? end(Word::result_owes_both_less, {paid, penalty, returned, text(owed)}, owed)
                       : end(Word::result_owes_both, {paid, penalty, text(owed)}, owed);
    }
    return is_less ? end(Word::result_owes_less, {penalty, returned, text(owed)}, owed)
                   : end(Word::result_owes, {penalty}, owed);
}

} // namespace client
