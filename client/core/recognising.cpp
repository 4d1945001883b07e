#include "recognising.h"

#include "balance.h"
#include "csv.h"
#include "known.h"
#include "rules.h"
#include "wheatrudder.h"

#include <algorithm>
#include <string_view>

namespace client {

namespace {

const char *const names_file = "plants.csv";

Form form_as(Known known) {
    switch (known) {
    case Known::text:
        return Form::text;
    case Known::pdf:
        return Form::pdf;
    case Known::picture:
        return Form::picture;
    case Known::archive:
        break;
    }
    return Form::archive;
}

Form form_as(Sort sort) {
    switch (sort) {
    case Sort::interval:
        return Form::interval;
    case Sort::correction:
        return Form::correction;
    case Sort::statement:
        break;
    }
    return Form::statement;
}

Form form_by_mark(View bytes) {
    if (const auto form = form_of(bytes)) {
        return form_as(form->sort);
    }
    constexpr std::string_view coming = "UW";
    const bool is_coming =
        bytes.size() > 1 && bytes[0] == 'P' && coming.find(static_cast<char>(bytes[1])) != std::string_view::npos;
    return bytes.empty() ? Form::empty : is_coming ? Form::coming : Form::unknown;
}

// A list of names may be shorter than a head, if every line of it names a row.
bool is_names(const std::string &path, View bytes, bool is_whole) {
    if (path != names_file || !is_text(bytes, is_whole)) {
        return false;
    }
    const Names names(bytes);
    return names.size() > 0 && names.passed_over() == 0;
}

} // namespace

std::size_t most_of(const std::string &path) {
    return path == names_file ? most_name_bytes : most_bytes;
}

// What is known is none of ours, whatever mark it begins with.
Form recognised(const std::string &path, const Content &content, bool is_whole) {
    const auto known = known_as({content.bytes, content.ending, is_whole});
    if (!known) {
        const Form form = form_by_mark(content.bytes);
        return form == Form::unknown && is_names(path, content.bytes, is_whole) ? Form::names : form;
    }
    if (known == Known::text && path == names_file) {
        return Form::names;
    }
    return known == Known::text && is_export(content.bytes) ? Form::exported : form_as(*known);
}

std::optional<Slot> slot_by_head(View bytes) {
    if (bytes.size() < 7) {
        return std::nullopt;
    }
    return slot_of(wheatrudder_u32(bytes.data() + 2), wheatrudder_u8(bytes.data() + 6));
}

bool is_whole_statement(View bytes) {
    const auto form = form_of(bytes);
    const bool is_statement = form && form->sort == Sort::statement;
    if (!is_statement || bytes.size() < form->head || !slot_by_head(bytes)) {
        return false;
    }
    const Statement statement(Bytes(bytes.begin(), bytes.end()));
    if (bytes.size() != form->length(statement.rows())) {
        return false;
    }
    const auto lines = statement.lines();
    const bool rises = std::adjacent_find(lines.begin(), lines.end(), [](const Line &one, const Line &next) {
                           return one.id >= next.id;
                       }) == lines.end();
    return rises && are_allowed(terms_of(statement)) && statement.averaged() <= 1 && !imbalance(statement);
}

} // namespace client
