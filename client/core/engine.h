// The proved engine (include/wheatrudder.h) in the client's types. Every figure of a statement comes through here;
// nothing is kept from one call to the next.
#pragma once

#include "calendar.h"
#include "figures.h"
#include "wheatrudder.h"

#include <array>
#include <compare>
#include <cstdint>
#include <optional>
#include <span>
#include <variant>
#include <vector>

namespace client {

using Bytes = std::vector<std::uint8_t>;
using View = std::span<const std::uint8_t>;

// What a row is called by, in files and statements: no place in a file.
struct RowId {
    std::uint16_t number = 0;
    friend constexpr auto operator<=>(RowId, RowId) = default;
};

enum class Kind : std::uint8_t { thermal = 1, wind = 2, solar = 3 };
enum class Status : std::uint8_t { normal = 0, starting = 1, reduced = 2, accident = 3 };

// What counts of a row, but for its offer: a neighbour's bids and minimum are nobody else's business.
struct Row {
    RowId id;
    Kind kind = Kind::thermal;
    std::int64_t capacity = 0; // MW
    Kwh metered;
    Status status = Status::normal;

    friend bool operator==(const Row &, const Row &) = default;
    // The energy of a quarter hour at so many percent of full load, cut to whole kWh; full load is 250 kWh for each MW.
    Kwh at_percent(int percent) const { return {capacity * percent * 5 / 2}; }
    // Whether nothing is cut there.
    bool is_whole_at(int percent) const { return capacity * percent * 5 % 2 == 0; }
};

// One line of a statement.
struct Line {
    RowId id;
    std::array<Kwh, 2> called; // by tier
    Fen compensation;
    Fen cut;
    Kwh weight;
    Fen cap;
    Fen paid;
    unsigned closing = 0; // the round in which it reached its cap, 0 if it did not
    Fen penalty;
    Fen returned;

    friend bool operator==(const Line &, const Line &) = default;
    // What the quarter brings the row, below 0 where it costs.
    Fen net() const { return compensation - cut - paid - penalty + returned; }
};

// What the regulator may move by a date (Article 64): the baseline of paid regulation, and between which bids a tier is
// offered. They are published, unlike a plant's own bids.
struct Terms {
    int baseline = 0;           // in percent of full load
    std::array<Li, 4> limits{}; // tier 1 lowest and highest, tier 2 lowest and highest

    friend bool operator==(const Terms &, const Terms &) = default;
};

// A statement that the engine has written: its bytes, read by the header's readers.
class Statement {
  public:
    explicit Statement(Bytes bytes);

    View bytes() const { return bytes_; }
    Slot slot() const;
    std::optional<Terms> terms() const; // where its head states them
    std::array<Li, 2> prices() const;
    Fen total() const;
    Fen shortfall() const;
    unsigned rounds() const;
    Kwh uncovered() const;
    std::uint32_t visits() const;
    // 1 where the thermal average ruled in the baseline's place (Article 22), else 0. No statement of ours has another
    // number there.
    unsigned averaged() const;
    bool is_averaged() const { return averaged() == 1; }
    std::size_t rows() const;
    // Line i, counted from 0 and below rows().
    Line line(std::size_t i) const;
    std::vector<Line> lines() const;
    // The line of a row, if it has one.
    std::optional<Line> of(RowId id) const;

  private:
    Bytes bytes_;
};

// The number of the check that failed, and its place: an entry counted from 1, or 0 for a head or a length.
struct Refusal {
    unsigned number = 0;
    unsigned place = 0;
    friend bool operator==(const Refusal &, const Refusal &) = default;
};

// Settles an interval file with its correction, which is empty where there is none.
std::variant<Statement, Refusal> settle(View interval, View correction);

// The row that counts: the correction's where it names the id, else the interval file's. None where the files are
// refused, or nobody names it.
std::optional<Row> counting_row(View interval, View correction, RowId id);

// The rows that count for the lines of a statement made from the same files, in the same order.
std::vector<Row> counting_rows(View interval, View correction, const Statement &statement);

// How a file is laid out, for who looks at it before the engine does: a head that begins with a mark, and rows (in a
// statement: lines) that are all of one length.
enum class Sort { interval, correction, statement };
struct FileForm {
    std::array<char, 2> mark{};
    Sort sort = Sort::interval;
    std::size_t head = 0;
    std::size_t row = 0;

    friend bool operator==(const FileForm &, const FileForm &) = default;
    // The length of a file with so many rows; the row at a place, counted from 0, begins at length(place).
    constexpr std::size_t length(std::size_t rows) const { return head + row * rows; }
};

// Every form that the engine knows. The heads of PG and PT state terms, and the statement of a PG file is a PT.
// Lengths of two forms differ by more than a byte, whatever their numbers of rows: a byte that was changed, lost or
// added never makes a whole file of one form a whole file of another.
inline constexpr FileForm ph_form{
    {'P', 'H'}, Sort::interval, WHEATRUDDER_INTERVAL_LENGTH_PH(0), WHEATRUDDER_ROW_LENGTH};
inline constexpr FileForm pg_form{
    {'P', 'G'}, Sort::interval, WHEATRUDDER_INTERVAL_LENGTH_PG(0), WHEATRUDDER_ROW_LENGTH};
inline constexpr FileForm pk_form{
    {'P', 'K'}, Sort::correction, WHEATRUDDER_CORRECTION_LENGTH(0), WHEATRUDDER_ROW_LENGTH};
inline constexpr FileForm ps_form{
    {'P', 'S'}, Sort::statement, WHEATRUDDER_STATEMENT_LENGTH_PS(0), WHEATRUDDER_LINE_LENGTH};
inline constexpr FileForm pt_form{
    {'P', 'T'}, Sort::statement, WHEATRUDDER_STATEMENT_LENGTH_PT(0), WHEATRUDDER_LINE_LENGTH};
inline constexpr std::array forms{ph_form, pg_form, pk_form, ps_form, pt_form};

// The form that the first two bytes name; none where there are fewer, or they name none.
std::optional<FileForm> form_of(View bytes);
// Whether the first two bytes name a form whose head states terms.
bool states_terms(View bytes);

// The head of an interval file that was accepted.
struct Head {
    FileForm form;
    Hao tariff;
    Kwh need;
    std::optional<Terms> terms; // where it states them
};
Head head_of(View accepted_interval);

} // namespace client
