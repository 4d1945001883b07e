#include "day_model.h"

#include "cell_delegate.h"
#include "duties.h"
#include "look.h"
#include "net_first.h"
#include "shown.h"

#include <algorithm>
#include <variant>

namespace client {

namespace {

// What a column shows besides the figures of a line.
enum class Own { time, metered, load, note };
using Column = std::variant<Own, Figure>;

// The time and what people look for first, the net amount; meter and load, every other field of a line, the note.
const std::vector<Column> &columns() {
    static const std::vector<Column> all = [] {
        const std::vector<Figure> &figures = net_first();
        std::vector<Column> made{Own::time, figures.front(), Own::metered, Own::load};
        made.insert(made.end(), figures.begin() + 1, figures.end());
        made.emplace_back(Own::note);
        return made;
    }();
    return all;
}

int column_count() {
    return static_cast<int>(columns().size());
}

const Column &column_at(int column) {
    return columns()[static_cast<std::size_t>(column)];
}

bool is_text(const Column &column) {
    return column == Column(Own::time) || column == Column(Own::note);
}

std::string own_text(const PlantQuarter &quarter, Own own) {
    if (!quarter.row) {
        return {};
    }
    return own == Own::metered ? text(quarter.row->metered)
           : own == Own::load  ? load_of(*quarter.row, 1, 1)
                               : std::string();
}

Word own_name(Own own) {
    switch (own) {
    case Own::time:
        return Word::figure_time;
    case Own::metered:
        return Word::figure_metered;
    case Own::load:
        return Word::figure_load;
    case Own::note:
        break;
    }
    return Word::figure_note;
}

// The name, and below it the unit.
QString head(const Column &column, Tongue tongue) {
    if (const auto *figure = std::get_if<Figure>(&column)) {
        return words(field(*figure).name, tongue) + QLatin1Char('\n') + words(unit_of(field(*figure)), tongue);
    }
    const Own own = std::get<Own>(column);
    const QString name = words(own_name(own), tongue);
    return own == Own::metered ? name + QLatin1Char('\n') + words(Word::unit_kwh, tongue)
           : own == Own::load  ? name + QLatin1Char('\n') + words(Word::unit_percent, tongue)
                               : name;
}

std::size_t quarters_outside(const PlantDay &day) {
    return static_cast<std::size_t>(std::count_if(day.quarters.begin(), day.quarters.end(),
                                                  [](const PlantQuarter &quarter) { return !quarter.line; }));
}

} // namespace

DayModel::DayModel(QObject *parent) : QAbstractTableModel(parent) {}

void DayModel::clear(Tongue tongue) {
    beginResetModel();
    tongue_ = tongue;
    day_.reset();
    endResetModel();
}

void DayModel::show_day(const PlantDay &day, Tongue tongue) {
    beginResetModel();
    tongue_ = tongue;
    day_ = day;
    is_folder_open_ = day.reading->unaccounted() > 0;
    endResetModel();
}

int DayModel::note_column() {
    return column_count() - 1;
}

bool DayModel::is_idle(int column) const {
    if (!day_ || is_text(column_at(column))) {
        return false;
    }
    const auto is_nothing = [&](const PlantQuarter &quarter) {
        const auto *figure = std::get_if<Figure>(&column_at(column));
        if (figure) {
            return *figure != Figure::net && (!quarter.line || field(*figure).of(*quarter.line) == 0);
        }
        const Own own = std::get<Own>(column_at(column));
        return own == Own::load && own_text(quarter, own).empty();
    };
    return std::all_of(day_->quarters.begin(), day_->quarters.end(), is_nothing);
}

int DayModel::rowCount(const QModelIndex &parent) const {
    return parent.isValid() || !day_ ? 0 : sums_row + 1;
}

int DayModel::columnCount(const QModelIndex &parent) const {
    return parent.isValid() ? 0 : column_count();
}

QVariant DayModel::data(const QModelIndex &index, int role) const {
    if (!day_ || !index.isValid()) {
        return {};
    }
    const bool is_sums = index.row() == sums_row;
    const bool is_net = column_at(index.column()) == Column(Figure::net);
    switch (role) {
    case Qt::DisplayRole:
        return is_sums ? sums_text(index.column()) : quarter_text(index.row(), index.column());
    case Qt::ToolTipRole:
        return tool_tip(explained(index));
    case Qt::AccessibleTextRole:
        return index.column() == note_column() ? QVariant(told(index)) : QVariant();
    case Qt::AccessibleDescriptionRole:
        return index.column() == note_column() ? QVariant() : QVariant(explained(index));
    case Qt::TextAlignmentRole:
        return static_cast<int>(Qt::AlignVCenter |
                                (is_text(column_at(index.column())) ? Qt::AlignLeft : Qt::AlignRight));
    case Qt::FontRole:
        return bold_if(is_sums || is_net);
    case CellDelegate::open_role:
        return is_net && is_open(index.row());
    default:
        return {};
    }
}

QVariant DayModel::headerData(int section, Qt::Orientation orientation, int role) const {
    if (orientation == Qt::Vertical) {
        // The time is the head of its row.
        const bool is_known = role == Qt::DisplayRole || role == Qt::FontRole || role == Qt::TextAlignmentRole;
        return is_known ? data(index(section, time_column()), role) : QVariant();
    }
    if (section < 0 || section >= column_count()) {
        return {};
    }
    const Column &column = column_at(section);
    switch (role) {
    case Qt::DisplayRole:
        return head(column, tongue_);
    case Qt::AccessibleTextRole: {
        const auto *figure = std::get_if<Figure>(&column);
        return figure ? words(long_name(field(*figure)), tongue_)
                      : head(column, tongue_).replace(QLatin1Char('\n'), QLatin1Char(' '));
    }
    case Qt::TextAlignmentRole:
        return static_cast<int>(Qt::AlignBottom | (is_text(column) ? Qt::AlignLeft : Qt::AlignRight));
    default:
        return {};
    }
}

// Whether a quarter has figures that are not final; the sums, as long as one of them may change.
bool DayModel::is_open(int row) const {
    if (row == sums_row) {
        return is_folder_open_;
    }
    const PlantQuarter &quarter = day_->quarters[static_cast<std::size_t>(row)];
    return quarter.line && (is_folder_open_ || !quarter.read->named.empty());
}

// Why a quarter has no figures, or none that is final, anywhere in its row; of the note all of it, however narrow it
// is.
QString DayModel::explained(const QModelIndex &index) const {
    if (index.column() == note_column()) {
        return told(index);
    }
    const bool is_quarter = index.row() != sums_row;
    const bool has_figures = !is_quarter || day_->quarters[static_cast<std::size_t>(index.row())].line;
    return has_figures && !is_open(index.row()) ? QString() : told(index);
}

// The note and what else is to be said of a row.
QString DayModel::told(const QModelIndex &index) const {
    if (index.row() == sums_row) {
        const auto open = reservation(*day_->reading);
        const QString sums = sums_text(note_column());
        return open ? words({Word::chart_reserved, {sums.toStdString(), *open}}, tongue_) : sums;
    }
    const PlantQuarter &quarter = day_->quarters[static_cast<std::size_t>(index.row())];
    const auto why = hindrance(*day_->reading, *quarter.read);
    const QString first = why ? words(*why, tongue_) : note(quarter);
    const auto open = reservation(*day_->reading, *quarter.read);
    if (!open) {
        return first;
    }
    const bool is_sentence = why.has_value() || first.isEmpty();
    return is_sentence ? words({Word::listing_sentences, {first.toStdString(), *open}}, tongue_).trimmed()
                       : words({Word::chart_reserved, {first.toStdString(), *open}}, tongue_);
}

QString DayModel::quarter_text(int number, int column) const {
    const PlantQuarter &quarter = day_->quarters[static_cast<std::size_t>(number)];
    if (const auto *figure = std::get_if<Figure>(&column_at(column))) {
        return quarter.line ? text(text_of(field(*figure), field(*figure).of(*quarter.line))) : QString();
    }
    switch (const Own own = std::get<Own>(column_at(column))) {
    case Own::time:
        return text(client::span(Quarter{static_cast<std::uint8_t>(number)}));
    case Own::note:
        return note(quarter);
    default:
        return text(own_text(quarter, own));
    }
}

QString DayModel::sums_text(int column) const {
    if (const auto *figure = std::get_if<Figure>(&column_at(column))) {
        const bool is_any = quarters_outside(*day_) < quarters_of_day;
        const Field &summed = field(*figure);
        return is_any && summed.has_sum ? text(text_of(summed, day_->sums.count(*figure))) : QString();
    }
    switch (std::get<Own>(column_at(column))) {
    case Own::time:
        return words(Word::day_sum, tongue_);
    case Own::metered: {
        Kwh sum;
        for (const PlantQuarter &quarter : day_->quarters) {
            sum += quarter.row ? quarter.row->metered : Kwh{};
        }
        return quarters_outside(*day_) < quarters_of_day ? text(text(sum)) : QString();
    }
    case Own::load:
        return {};
    case Own::note:
        break;
    }
    const std::size_t outside = quarters_outside(*day_);
    return words(outside == 0 ? Said(Word::day_sum_all)
                              : counted(outside, Word::day_sum_without_one, Word::day_sum_without),
                 tongue_);
}

QString DayModel::note(const PlantQuarter &quarter) const {
    const QuarterRead &read = *quarter.read;
    switch (read.state) {
    case State::missing:
        return words(Word::note_missing, tongue_);
    case State::two_intervals:
        return words(Word::note_two_intervals, tongue_);
    case State::two_corrections:
        return words(Word::note_two_corrections, tongue_);
    case State::arriving:
        return words(Word::note_arriving, tongue_);
    case State::refused:
        return read.refused ? words({Word::note_refused, {text(std::int64_t{read.refused->refusal.number})}}, tongue_)
                            : words(Word::note_refused_plain, tongue_);
    case State::settled:
    case State::corrected:
        break;
    }
    if (!quarter.line) {
        return words(Word::note_absent, tongue_);
    }
    if (!read.named.empty()) {
        return words({Word::note_named, {day_->reading->files.at(read.named.front()).name}}, tongue_);
    }
    std::vector<Said> notes;
    if (quarter.before) {
        const Fen was = quarter.before->net();
        notes.push_back(was == quarter.line->net() ? Said(Word::note_corrected_same)
                                                   : Said(Word::note_corrected, {text(was)}));
    }
    if (const Terms terms = terms_of(*read.statement); terms != issued_terms) {
        notes.push_back({Word::note_terms, {std::to_string(terms.baseline)}});
    }
    if (read.statement->is_averaged()) {
        notes.push_back(Word::note_averaged);
    }
    return notes.empty() ? QString() : words(beside(notes), tongue_);
}

} // namespace client
