#include "named.h"

namespace client {

namespace {

Said called(RowId id, const Namer &name_of, Word without_name) {
    const std::string number = std::to_string(id.number);
    if (!has_name(id, name_of)) {
        return {without_name, {number}};
    }
    return {Word::row_named, {number, Hole(name_of(id, Tongue::english), name_of(id, Tongue::chinese))}};
}

} // namespace

Word kind_word(Kind kind) {
    switch (kind) {
    case Kind::wind:
        return Word::kind_2;
    case Kind::solar:
        return Word::kind_3;
    default:
        return Word::kind_1;
    }
}

Word status_word(Status status) {
    switch (status) {
    case Status::starting:
        return Word::status_1;
    case Status::reduced:
        return Word::status_2;
    case Status::accident:
        return Word::status_3;
    default:
        return Word::status_0;
    }
}

Said in_words(const Terms &terms) {
    std::vector<Hole> holes{std::to_string(terms.baseline)};
    for (const Li limit : terms.limits) {
        holes.emplace_back(text(limit));
    }
    return {Word::terms, holes};
}

std::optional<Said> change_of_average(const Statement &before, const Statement &now) {
    if (before.is_averaged() == now.is_averaged()) {
        return std::nullopt;
    }
    return Said(now.is_averaged() ? Word::change_averaged : Word::change_averaged_no_more);
}

bool has_name(RowId id, const Namer &name_of) {
    return name_of && !name_of(id, Tongue::english).empty();
}

Said called(RowId id, const Namer &name_of) {
    return called(id, name_of, Word::row);
}

Said called_within(RowId id, const Namer &name_of) {
    return called(id, name_of, Word::row_within);
}

} // namespace client
