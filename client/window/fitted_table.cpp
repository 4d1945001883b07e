#include "fitted_table.h"

#include "cell_delegate.h"
#include "look.h"

#include <QHeaderView>
#include <QScrollBar>
#include <QWheelEvent>

#include <algorithm>

namespace client {

// The model.

void TextTable::fill(QStringList heads, std::vector<TextRow> rows) {
    beginResetModel();
    heads_ = std::move(heads);
    rows_ = std::move(rows);
    endResetModel();
}

int TextTable::rowCount(const QModelIndex &parent) const {
    return parent.isValid() ? 0 : static_cast<int>(rows_.size());
}

int TextTable::columnCount(const QModelIndex &parent) const {
    return parent.isValid() ? 0 : static_cast<int>(heads_.size());
}

QVariant TextTable::data(const QModelIndex &index, int role) const {
    const auto row = static_cast<std::size_t>(index.row());
    const auto column = static_cast<std::size_t>(index.column());
    if (!index.isValid() || row >= rows_.size() || column >= rows_[row].cells.size()) {
        return {};
    }
    const Cell &cell = rows_[row].cells[column];
    switch (role) {
    case Qt::DisplayRole:
        return cell.text;
    case Qt::TextAlignmentRole:
        return static_cast<int>(Qt::AlignTop | (cell.is_figure ? Qt::AlignRight : Qt::AlignLeft));
    case Qt::FontRole:
        return bold_if(cell.is_bold || rows_[row].is_result);
    case CellDelegate::muted_role:
        return cell.is_void;
    case CellDelegate::result_role:
        return rows_[row].is_result;
    default:
        return {};
    }
}

QVariant TextTable::headerData(int section, Qt::Orientation orientation, int role) const {
    if (orientation != Qt::Horizontal || section < 0 || section >= heads_.size()) {
        return {};
    }
    if (role == Qt::TextAlignmentRole) {
        const bool is_figure = !rows_.empty() && rows_.front().cells.size() > static_cast<std::size_t>(section) &&
                               rows_.front().cells[static_cast<std::size_t>(section)].is_figure;
        return static_cast<int>(Qt::AlignBottom | (is_figure ? Qt::AlignRight : Qt::AlignLeft));
    }
    return role == Qt::DisplayRole ? QVariant(heads_[section]) : QVariant();
}

// The view.

FittedTable::FittedTable(int wrapping_column, QWidget *parent) : FillingTable(parent), content_(new TextTable(this)) {
    setModel(content_);
    auto *delegate = new CellDelegate(this);
    delegate->rule_rows();
    setItemDelegate(delegate);
    setWordWrap(true);
    setFrameShape(QFrame::NoFrame);
    setSelectionMode(QAbstractItemView::NoSelection);
    setHorizontalScrollMode(QAbstractItemView::ScrollPerPixel);
    setVerticalScrollBarPolicy(Qt::ScrollBarAlwaysOff);
    setSizePolicy(QSizePolicy::Ignored, QSizePolicy::Fixed);
    give_room_to({wrapping_column}, 12);
}

void FittedTable::fill(QStringList heads, std::vector<TextRow> rows) {
    content_->fill(std::move(heads), std::move(rows));
    fit();
}

void FittedTable::clear() {
    content_->fill({}, {});
}

QSize FittedTable::sizeHint() const {
    return {letters(*this, 40), minimumHeight()};
}

QSize FittedTable::minimumSizeHint() const {
    return {letters(*this, 10), minimumHeight()};
}

void FittedTable::fit_rows() {
    int height = horizontalHeader()->isHidden() ? 0 : horizontalHeader()->minimumHeight();
    verticalHeader()->setMinimumSectionSize(0);
    for (int row = 0; row < content_->rowCount(); ++row) {
        int tallest = 0;
        for (int column = 0; column < content_->columnCount(); ++column) {
            QStyleOptionViewItem option;
            initViewItemOption(&option);
            tallest = std::max(tallest, itemDelegate()->sizeHint(option, content_->index(row, column)).height());
        }
        setRowHeight(row, tallest);
        height += tallest;
    }
    const bool is_wider = horizontalHeader()->length() > viewport()->width();
    setFixedHeight(height + (is_wider ? horizontalScrollBar()->sizeHint().height() : 0));
}

void FittedTable::currentChanged(const QModelIndex &current, const QModelIndex &previous) {
    FillingTable::currentChanged(current, previous);
    if (current.isValid() && hasFocus()) {
        emit entered_cell(QRect(viewport()->mapTo(this, visualRect(current).topLeft()), visualRect(current).size()));
    }
}

void FittedTable::wheelEvent(QWheelEvent *event) {
    if (event->angleDelta().x() != 0) {
        FillingTable::wheelEvent(event);
    } else {
        event->ignore();
    }
}

} // namespace client
