#include "rows_model.h"

#include "cell_delegate.h"
#include "look.h"
#include "phrases.h"

#include <algorithm>

namespace client {

void RowsModel::Sum::add(std::int64_t figure) {
    count += figure;
    ++parts;
}

void RowsModel::clear(Tongue tongue) {
    beginResetModel();
    shown_.reset();
    plants_.clear();
    tongue_ = tongue;
    add_up();
    endResetModel();
}

void RowsModel::show_rows(const Shown &shown, Figure figure) {
    beginResetModel();
    shown_ = shown;
    plants_ = plants_of(*shown.reading, *shown.day);
    figure_ = figure;
    tongue_ = shown.tongue;
    add_up();
    endResetModel();
}

void RowsModel::set_figure(Figure figure) {
    figure_ = figure;
    add_up();
    if (rowCount() > 0) {
        emit dataChanged(index(0, 0), index(rowCount() - 1, columnCount() - 1));
    }
}

// Plants and lines are both in the order of their ids.
void RowsModel::add_up() {
    of_rows_.assign(plants_.size(), {});
    of_quarters_ = {};
    of_all_ = {};
    lowest_ = highest_ = 0;
    for (std::size_t number = 0; number < quarters_of_day && !plants_.empty(); ++number) {
        const auto &statement = quarter_at(static_cast<int>(number)).statement;
        std::size_t plant = 0;
        for (std::size_t i = 0; statement && i < statement->rows(); ++i) {
            const Line line = statement->line(i);
            const std::int64_t count = field(figure_).of(line);
            while (plants_.at(plant).id < line.id) {
                ++plant;
            }
            of_rows_[plant].add(count);
            of_quarters_[number].add(count);
            of_all_.add(count);
            lowest_ = std::min(lowest_, count);
            highest_ = std::max(highest_, count);
        }
    }
}

std::optional<RowId> RowsModel::id_at(int row) const {
    return row >= 0 && row < sums_row() ? std::optional(plants_[static_cast<std::size_t>(row)].id) : std::nullopt;
}

std::optional<Quarter> RowsModel::quarter_of(int column) const {
    return column >= 0 && column < sums_column ? std::optional(Quarter{static_cast<std::uint8_t>(column)})
                                               : std::nullopt;
}

std::optional<int> RowsModel::row_of(RowId id) const {
    const auto found = std::lower_bound(plants_.begin(), plants_.end(), id,
                                        [](const Plant &plant, RowId wanted) { return plant.id < wanted; });
    if (found == plants_.end() || found->id != id) {
        return std::nullopt;
    }
    return static_cast<int>(found - plants_.begin());
}

std::vector<QString> RowsModel::longest(int column) const {
    std::int64_t lowest = lowest_;
    std::int64_t highest = highest_;
    const auto widen = [&](const Sum &sum) {
        lowest = std::min(lowest, sum.count);
        highest = std::max(highest, sum.count);
    };
    if (column == sums_column) {
        std::for_each(of_rows_.begin(), of_rows_.end(), widen);
        widen(of_all_);
    } else if (has_sums()) {
        std::for_each(of_quarters_.begin(), of_quarters_.end(), widen);
    }
    return {text(text_of(field(figure_), lowest)), text(text_of(field(figure_), highest))};
}

int RowsModel::rowCount(const QModelIndex &parent) const {
    return parent.isValid() || plants_.empty() ? 0 : sums_row() + 1;
}

int RowsModel::columnCount(const QModelIndex &parent) const {
    return parent.isValid() ? 0 : sums_column + 1;
}

const QuarterRead &RowsModel::quarter_at(int column) const {
    return shown_->reading->at({*shown_->day, {static_cast<std::uint8_t>(column)}});
}

std::optional<Said> RowsModel::hindrance_of(int column) const {
    return shown_ && column != sums_column ? hindrance(*shown_->reading, quarter_at(column)) : std::nullopt;
}

std::optional<std::int64_t> RowsModel::sum_at(const QModelIndex &index) const {
    const bool is_of_all = index.row() == sums_row() && index.column() == sums_column;
    const Sum &sum = is_of_all                       ? of_all_
                     : index.column() == sums_column ? of_rows_[static_cast<std::size_t>(index.row())]
                                                     : of_quarters_[static_cast<std::size_t>(index.column())];
    return has_sums() && sum.parts > 0 ? std::optional(sum.count) : std::nullopt;
}

std::optional<std::int64_t> RowsModel::count_at(const QModelIndex &index) const {
    const auto id = id_at(index.row());
    if (!id || index.column() == sums_column) {
        return sum_at(index);
    }
    const auto &statement = quarter_at(index.column()).statement;
    const auto line = statement ? statement->of(*id) : std::nullopt;
    return line ? std::optional(field(figure_).of(*line)) : std::nullopt;
}

QVariant RowsModel::data(const QModelIndex &index, int role) const {
    if (!index.isValid() || !shown_) {
        return {};
    }
    switch (role) {
    case Qt::DisplayRole:
        return cell_text(index);
    case CellDelegate::muted_role:
        return count_at(index) == std::int64_t{0};
    case CellDelegate::void_role:
        return hindrance_of(index.column()).has_value();
    case Qt::FontRole:
        return bold_if(index.row() == sums_row() || index.column() == sums_column);
    case Qt::TextAlignmentRole:
        return static_cast<int>(Qt::AlignRight | Qt::AlignVCenter);
    case Qt::AccessibleTextRole:
        return told(index);
    case Qt::ToolTipRole:
        return tool_tip(told(index));
    default:
        return {};
    }
}

QString RowsModel::cell_text(const QModelIndex &index) const {
    const auto count = count_at(index);
    return count ? text(text_of(field(figure_), *count)) : QString();
}

// A cell that says by itself which it is, also where it is empty, and why.
QString RowsModel::told(const QModelIndex &index) const {
    const QString cell = cell_text(index);
    const Said nothing = hindrance_of(index.column()).value_or(count_at(index) ? Word::rows_never : Word::rows_absent);
    const Said value =
        cell.isEmpty() ? nothing : Said(Word::rows_value, {long_name(field(figure_)), cell.toStdString()});
    return words({Word::rows_what, {row_text(index.row()).toStdString(), Hole(column_text(index)), value}}, tongue_);
}

std::string RowsModel::column_text(const QModelIndex &index) const {
    if (const auto quarter = quarter_of(index.column())) {
        return client::span(*quarter);
    }
    const std::size_t settled = arrived(*shown_->reading, *shown_->day).settled;
    const std::size_t quarters =
        index.row() == sums_row() ? settled : of_rows_[static_cast<std::size_t>(index.row())].parts;
    return counted(quarters, Word::rows_sum_of_one, Word::rows_sum_of).in(tongue_);
}

QString RowsModel::row_text(int row) const {
    if (row == sums_row()) {
        return words(Word::rows_all, tongue_);
    }
    const Plant &plant = plants_[static_cast<std::size_t>(row)];
    const std::string number = std::to_string(plant.id.number);
    const std::string name = shown_->reading->names.of(plant.id, tongue_);
    const Said kind = kind_word(plant.kind);
    return name.empty() ? words({Word::rows_row, {Said(Word::row, {number}), kind}}, tongue_)
                        : words({Word::rows_named, {number, name, kind}}, tongue_);
}

QString RowsModel::sums_head() const {
    const bool is_ready = shown_ && arrived(*shown_->reading, *shown_->day).is_ready();
    return words(is_ready ? Word::day_sum : Word::rows_sum_so_far, tongue_);
}

// A quarter, and what there is to say of it as a whole.
Said RowsModel::said_of(Quarter quarter) const {
    const std::string when = client::span(quarter);
    if (const auto why = hindrance_of(quarter.number)) {
        return {Word::chart_hindered, {when, *why}};
    }
    const bool is_averaged = shown_ && quarter_at(quarter.number).statement->is_averaged();
    return {is_averaged ? Word::chart_by_average : Word::listing_one, {when}};
}

QVariant RowsModel::column_head(int column, int role) const {
    const auto quarter = quarter_of(column);
    switch (role) {
    case Qt::DisplayRole:
        return quarter ? text(start(*quarter)) : sums_head();
    case Qt::AccessibleTextRole:
    case Qt::ToolTipRole: {
        const QString said = quarter ? words(said_of(*quarter), tongue_) : sums_head();
        return role == Qt::ToolTipRole ? tool_tip(said) : said;
    }
    case CellDelegate::void_role:
        return hindrance_of(column).has_value();
    case Qt::TextAlignmentRole:
        return static_cast<int>(Qt::AlignRight | Qt::AlignVCenter);
    default:
        return {};
    }
}

QVariant RowsModel::headerData(int section, Qt::Orientation orientation, int role) const {
    if (orientation == Qt::Horizontal) {
        return column_head(section, role);
    }
    if (!shown_ || section >= rowCount()) {
        return {};
    }
    switch (role) {
    case Qt::DisplayRole:
        return row_text(section);
    case Qt::ToolTipRole:
        return tool_tip(row_text(section));
    case Qt::FontRole:
        return bold_if(section == sums_row());
    case Qt::TextAlignmentRole:
        return static_cast<int>(Qt::AlignLeft | Qt::AlignVCenter);
    default:
        return {};
    }
}

} // namespace client
