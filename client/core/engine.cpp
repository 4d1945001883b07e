#include "engine.h"

#include <algorithm>
#include <utility>

namespace client {

namespace {

Row row_of(View bytes) {
    const std::uint8_t *at = bytes.data();
    return {
        .id = {wheatrudder_u16(at + 2)},
        .kind = static_cast<Kind>(wheatrudder_u8(at + 4)),
        .capacity = wheatrudder_u16(at + 5),
        .metered = {wheatrudder_u32(at + 7)},
        .status = static_cast<Status>(wheatrudder_u8(at + 11)),
    };
}

// Nine bytes: the percent, and the four limits.
Terms terms_at(const std::uint8_t *at) {
    Terms terms{.baseline = wheatrudder_u8(at)};
    for (std::size_t limit = 0; limit < terms.limits.size(); ++limit) {
        terms.limits[limit] = {wheatrudder_u16(at + 1 + 2 * limit)};
    }
    return terms;
}

} // namespace

Statement::Statement(Bytes bytes) : bytes_(std::move(bytes)) {}

Slot Statement::slot() const {
    return {{wheatrudder_statement_day(bytes_.data())}, {wheatrudder_statement_quarter(bytes_.data())}};
}

std::optional<Terms> Statement::terms() const {
    return states_terms(bytes_) ? std::optional(terms_at(bytes_.data() + WHEATRUDDER_HEAD_PERCENT_PT)) : std::nullopt;
}

std::array<Li, 2> Statement::prices() const {
    return {Li{wheatrudder_statement_price1(bytes_.data())}, Li{wheatrudder_statement_price2(bytes_.data())}};
}

Fen Statement::total() const {
    return {static_cast<std::int64_t>(wheatrudder_statement_total(bytes_.data()))};
}

Fen Statement::shortfall() const {
    return {static_cast<std::int64_t>(wheatrudder_statement_shortfall(bytes_.data()))};
}

unsigned Statement::rounds() const {
    return wheatrudder_statement_rounds(bytes_.data());
}

Kwh Statement::uncovered() const {
    return {wheatrudder_statement_uncovered(bytes_.data())};
}

std::uint32_t Statement::visits() const {
    return wheatrudder_statement_visits(bytes_.data());
}

unsigned Statement::averaged() const {
    return wheatrudder_statement_averaged(bytes_.data());
}

std::size_t Statement::rows() const {
    return wheatrudder_statement_rows(bytes_.data());
}

Line Statement::line(std::size_t i) const {
    const std::uint8_t *all = bytes_.data();
    return {
        .id = {wheatrudder_line_id(all, i)},
        .called = {Kwh{wheatrudder_line_called1(all, i)}, Kwh{wheatrudder_line_called2(all, i)}},
        .compensation = {wheatrudder_line_compensation(all, i)},
        .cut = {wheatrudder_line_cut(all, i)},
        .weight = {wheatrudder_line_weight(all, i)},
        .cap = {wheatrudder_line_cap(all, i)},
        .paid = {wheatrudder_line_paid(all, i)},
        .closing = wheatrudder_line_closing(all, i),
        .penalty = {wheatrudder_line_penalty(all, i)},
        .returned = {wheatrudder_line_returned(all, i)},
    };
}

std::vector<Line> Statement::lines() const {
    std::vector<Line> all;
    all.reserve(rows());
    for (std::size_t i = 0; i < rows(); ++i) {
        all.push_back(line(i));
    }
    return all;
}

std::optional<Line> Statement::of(RowId id) const {
    // Ids rise from line to line.
    std::size_t first = 0;
    std::size_t end = rows();
    while (first < end) {
        const std::size_t middle = first + (end - first) / 2;
        const std::uint16_t here = wheatrudder_line_id(bytes_.data(), middle);
        if (here == id.number) {
            return line(middle);
        }
        if (here < id.number) {
            first = middle + 1;
        } else {
            end = middle;
        }
    }
    return std::nullopt;
}

std::variant<Statement, Refusal> settle(View interval, View correction) {
    Bytes buffer(WHEATRUDDER_STATEMENT_ROOM(WHEATRUDDER_MOST_ROWS));
    const std::uint64_t answer = wheatrudder_settle(interval.data(), interval.size(), correction.data(),
                                                    correction.size(), buffer.data(), buffer.size());
    if (const unsigned number = wheatrudder_number(answer)) {
        return Refusal{number, wheatrudder_value(answer)};
    }
    return Statement(Bytes(buffer.begin(), buffer.begin() + wheatrudder_value(answer)));
}

std::optional<Row> counting_row(View interval, View correction, RowId id) {
    std::array<std::uint8_t, WHEATRUDDER_ROW_LENGTH> bytes{};
    const std::uint64_t answer = wheatrudder_row(interval.data(), interval.size(), correction.data(), correction.size(),
                                                 id.number, bytes.data(), bytes.size());
    if (wheatrudder_number(answer) != 0 || wheatrudder_value(answer) != bytes.size()) {
        return std::nullopt;
    }
    return row_of(bytes);
}

std::vector<Row> counting_rows(View interval, View correction, const Statement &statement) {
    std::vector<Row> rows;
    rows.reserve(statement.rows());
    for (std::size_t i = 0; i < statement.rows(); ++i) {
        if (const auto row = counting_row(interval, correction, statement.line(i).id)) {
            rows.push_back(*row);
        }
    }
    return rows;
}

std::optional<FileForm> form_of(View bytes) {
    const auto found = std::find_if(forms.begin(), forms.end(), [&](const FileForm &form) {
        return bytes.size() >= form.mark.size() && std::equal(form.mark.begin(), form.mark.end(), bytes.begin());
    });
    return found == forms.end() ? std::nullopt : std::optional(*found);
}

bool states_terms(View bytes) {
    const auto form = form_of(bytes);
    return form == pg_form || form == pt_form;
}

Head head_of(View accepted_interval) {
    const std::uint8_t *at = accepted_interval.data();
    return {
        .form = form_of(accepted_interval).value(),
        .tariff = {wheatrudder_u16(at + 7)},
        .need = {wheatrudder_u32(at + 9)},
        // They stand behind the fields that both heads have.
        .terms = states_terms(accepted_interval) ? std::optional(terms_at(at + ph_form.head)) : std::nullopt,
    };
}

} // namespace client
