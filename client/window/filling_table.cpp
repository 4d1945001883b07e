#include "filling_table.h"

#include "cell_delegate.h"
#include "laid_text.h"
#include "look.h"
#include "plain_header.h"

#include <QAbstractButton>
#include <QApplication>
#include <QClipboard>
#include <QEvent>
#include <QHelpEvent>
#include <QKeyEvent>
#include <QMouseEvent>
#include <QPainter>
#include <QScrollBar>
#include <QStringList>

#include <algorithm>

namespace client {

namespace {

// Rows whose texts are measured: the rest of a long table is like them.
constexpr int rows_measured = 200;
// Of the head of a row so much is always read: its id.
constexpr double least_head_letters = 8;

// The sections that are seen, in the order in which they stand: what is pinned comes first.
std::vector<int> in_order(const QHeaderView &heads, std::optional<int> pinned) {
    std::vector<int> order;
    if (pinned) {
        order.push_back(*pinned);
    }
    for (int section = 0; section < heads.count(); ++section) {
        if (!heads.isSectionHidden(section)) {
            order.push_back(section);
        }
    }
    return order;
}

// The section so many steps further, or the last on the way there.
int step(const std::vector<int> &order, int from, int by) {
    const auto at = std::find(order.begin(), order.end(), from);
    if (at == order.end()) {
        return order.front();
    }
    const auto place = std::clamp<std::ptrdiff_t>(at - order.begin() + by, 0, std::ssize(order) - 1);
    return order[static_cast<std::size_t>(place)];
}

} // namespace

FillingTable::FillingTable(QWidget *parent)
    : QuietTable(parent), heads_(new PlainHeader(Qt::Horizontal, this)),
      row_heads_(new PlainHeader(Qt::Vertical, this)),
      corner_(findChild<QAbstractButton *>({}, Qt::FindDirectChildrenOnly)) {
    setHorizontalHeader(heads_);
    setVerticalHeader(row_heads_);
    setItemDelegate(new CellDelegate(this));
    setTabKeyNavigation(false);
    setShowGrid(false);
    setWordWrap(false);
    setCornerButtonEnabled(false);
    setEditTriggers(QAbstractItemView::NoEditTriggers);
    heads_->setSectionResizeMode(QHeaderView::Fixed);
    row_heads_->setSectionResizeMode(QHeaderView::Fixed);
    row_heads_->hide();
    for (QWidget *beside : std::initializer_list<QWidget *>{heads_->viewport(), row_heads_->viewport(), corner_}) {
        if (beside) {
            beside->installEventFilter(this);
        }
    }
    // What was not whole at the edge may be so now.
    connect(horizontalScrollBar(), &QScrollBar::valueChanged, this, [this] {
        viewport()->update();
        update_heads();
    });
}

QSize FillingTable::sizeHint() const {
    return {letters(*this, 40), lines(*this, 8)};
}

void FillingTable::give_room_to(std::set<int> columns, double least_letters) {
    roomy_ = std::move(columns);
    least_letters_ = least_letters;
}

void FillingTable::show_row_heads(double most_part) {
    most_head_part_ = most_part;
    row_heads_->show();
}

void FillingTable::pin(std::optional<int> row, std::optional<int> column) {
    pinned_row_ = row;
    wanted_column_ = column;
    pinned_column_ = column;
}

// Widths.

int FillingTable::content_width(int column, TextWidths &widths) const {
    // No figure is cut short, in whichever row: all are measured.
    const bool has_figures = is_figure(model()->index(0, column));
    const int rows = has_figures ? model()->rowCount() : std::min(model()->rowCount(), rows_measured);
    int widest = 0;
    for (int row = 0; row < rows; ++row) {
        const QModelIndex index = model()->index(row, column);
        widest = std::max(widest, widths.of(index.data().toString(), index.data(Qt::FontRole).isValid()));
    }
    return has_figures ? widest : std::min(widest, letters(*this, most_letters_));
}

int FillingTable::natural_width(int column, TextWidths &widths) const {
    return std::max(heads_->least_width(column), content_width(column, widths)) + 2 * side_of(*this);
}

void FillingTable::measure() {
    TextWidths widths(font());
    natural_.clear();
    for (int column = 0; column < model()->columnCount(); ++column) {
        const bool is_seen = !isColumnHidden(column) || column == wanted_column_;
        natural_.push_back(is_seen ? natural_width(column, widths) : 0);
    }
    natural_heads_ = 0;
    for (int row = 0; row < model()->rowCount() && !row_heads_->isHidden(); ++row) {
        const bool is_bold = model()->headerData(row, Qt::Vertical, Qt::FontRole).isValid();
        const QString head = model()->headerData(row, Qt::Vertical).toString();
        natural_heads_ = std::max(natural_heads_, widths.of(head, is_bold) + 2 * side_of(*this));
    }
}

int FillingTable::natural(std::optional<int> column) const {
    const bool is_measured = column && *column < static_cast<int>(natural_.size());
    return is_measured ? natural_[static_cast<std::size_t>(*column)] : 0;
}

// Of columns that are never cut short, the widest.
int FillingTable::widest_column() const {
    int widest = 0;
    for (int column = 0; column < static_cast<int>(natural_.size()); ++column) {
        if (column != wanted_column_ && !takes_room(column)) {
            widest = std::max(widest, natural(column));
        }
    }
    return widest;
}

// Heads of rows that may be cut short leave room for one column at least; what is pinned does so, or is not.
void FillingTable::spread_heads() {
    const int all = width() - 2 * frameWidth() - verticalScrollBar()->sizeHint().width();
    const int pinned = natural(wanted_column_);
    int heads = row_heads_->isHidden() ? 0 : natural_heads_;
    if (most_head_part_ < 1) {
        const int most = std::min(static_cast<int>(all * most_head_part_), all - pinned - widest_column());
        heads = std::min(heads, std::max(most, letters(*this, least_head_letters)));
    }
    pinned_column_ = all - heads - pinned >= widest_column() ? wanted_column_ : std::nullopt;
    if (wanted_column_) {
        setColumnHidden(*wanted_column_, pinned_column_.has_value());
    }
    if (!row_heads_->isHidden()) {
        row_heads_->setFixedWidth(heads + pinned_width());
    }
    row_heads_->lend(pinned_width(), [this](QPainter &painter) { paint_pinned_column(painter); });
    heads_->lend(pinned_height(), [this](QPainter &painter) { paint_pinned_row(painter); });
}

void FillingTable::spread_columns() {
    int room = viewport()->width();
    std::vector<std::pair<int, int>> roomy;
    for (int column = 0; column < static_cast<int>(natural_.size()); ++column) {
        const int wide = natural(column);
        if (isColumnHidden(column)) {
            continue;
        }
        if (takes_room(column)) {
            roomy.emplace_back(wide, column);
        } else {
            setColumnWidth(column, wide);
            room -= wide;
        }
    }
    // The narrow ones first: what they leave goes to the others.
    std::sort(roomy.begin(), roomy.end());
    for (std::size_t i = 0; i < roomy.size(); ++i) {
        const auto [wanted, column] = roomy[i];
        const bool is_last = i + 1 == roomy.size();
        const int share = room / static_cast<int>(roomy.size() - i);
        const int given = is_last ? share : std::min(share, wanted);
        const int width = std::max(given, std::min(wanted, letters(*this, least_letters_)));
        setColumnWidth(column, width);
        room -= width;
    }
}

// As many as fit, and what is left over between them.
void FillingTable::spread_evenly() {
    const int widest = std::max({1, widest_column(), pinned_column_ ? 0 : natural(wanted_column_)});
    const int room = viewport()->width();
    heads_->setDefaultSectionSize(std::max(widest, room / std::max(1, room / widest)));
}

void FillingTable::spread() {
    // Widths may bring a scroll bar, and with it another size.
    if (is_spreading_ || !model()) {
        return;
    }
    is_spreading_ = true;
    spread_heads();
    updateGeometries();
    is_even_ ? spread_evenly() : spread_columns();
    heads_->setFixedHeight(heads_->needed_height() + pinned_height());
    fit_rows();
    updateGeometries();
    align_columns();
    update_heads();
    is_spreading_ = false;
}

// Qt leaves columns where they were when their widths change, and the first of them in sight in part.
void FillingTable::align_columns() {
    const QScrollBar &across = *horizontalScrollBar();
    if (horizontalScrollMode() != ScrollPerItem) {
        return;
    }
    if (across.maximum() > 0 && across.value() == across.maximum()) {
        heads_->setOffsetToLastSection();
    } else {
        heads_->setOffsetToSectionPosition(across.value());
    }
}

void FillingTable::fit() {
    if (!model()) {
        return;
    }
    if (pinned_row_) {
        setRowHidden(*pinned_row_, true);
    }
    measure();
    spread();
}

void FillingTable::fit_rows() {
    row_heads_->setMinimumSectionSize(0);
    row_heads_->setDefaultSectionSize(lines(*this, 1.5));
}

void FillingTable::resizeEvent(QResizeEvent *event) {
    QuietTable::resizeEvent(event);
    spread();
}

void FillingTable::changeEvent(QEvent *event) {
    QuietTable::changeEvent(event);
    if (event->type() == QEvent::FontChange || event->type() == QEvent::StyleChange) {
        fit();
    }
}

// What is pinned: cells in the room of the heads. Places are those of the cells, so they lie before 0.

int FillingTable::pinned_height() const {
    return pinned_row_ ? lines(*this, 1.5) : 0;
}

int FillingTable::pinned_width() const {
    return natural(pinned_column_);
}

QRect FillingTable::visualRect(const QModelIndex &index) const {
    const bool is_in_row = index.isValid() && index.row() == pinned_row_;
    const bool is_in_column = index.isValid() && index.column() == pinned_column_;
    if (!is_in_row && !is_in_column) {
        return QuietTable::visualRect(index);
    }
    const int left = is_in_column ? -pinned_width() : columnViewportPosition(index.column());
    const int top = is_in_row ? -pinned_height() : rowViewportPosition(index.row());
    return {left, top, is_in_column ? pinned_width() : columnWidth(index.column()),
            is_in_row ? pinned_height() : rowHeight(index.row())};
}

QModelIndex FillingTable::pinned_at(const QPoint &at) const {
    if (!model() || at.x() < -pinned_width() || at.y() < -pinned_height() || (at.x() >= 0 && at.y() >= 0)) {
        return {};
    }
    const int row = at.y() < 0 ? pinned_row_.value_or(-1) : rowAt(at.y());
    const int column = at.x() < 0 ? pinned_column_.value_or(-1) : columnAt(at.x());
    return row < 0 || column < 0 ? QModelIndex() : model()->index(row, column);
}

QModelIndex FillingTable::indexAt(const QPoint &at) const {
    return at.x() >= 0 && at.y() >= 0 ? QuietTable::indexAt(at) : pinned_at(at);
}

// What is pinned is in sight already: only the other direction scrolls.
void FillingTable::scrollTo(const QModelIndex &index, ScrollHint hint) {
    const bool is_in_row = index.isValid() && index.row() == pinned_row_;
    const bool is_in_column = index.isValid() && index.column() == pinned_column_;
    if (!is_in_row && !is_in_column) {
        return QuietTable::scrollTo(index, hint);
    }
    const int across = horizontalScrollBar()->value();
    const int down = verticalScrollBar()->value();
    const int row = is_in_row ? rowAt(0) : index.row();
    const int column = is_in_column ? columnAt(0) : index.column();
    if (row >= 0 && column >= 0) {
        QuietTable::scrollTo(model()->index(row, column), hint);
    }
    if (is_in_row) {
        verticalScrollBar()->setValue(down);
    }
    if (is_in_column) {
        horizontalScrollBar()->setValue(across);
    }
}

QModelIndex FillingTable::moveCursor(CursorAction action, Qt::KeyboardModifiers modifiers) {
    const QModelIndex at = currentIndex();
    const std::vector<int> rows = in_order(*row_heads_, pinned_row_);
    const std::vector<int> columns = in_order(*heads_, pinned_column_);
    const bool is_pinning = pinned_row_ || pinned_column_;
    if (!is_pinning || !at.isValid() || rows.empty() || columns.empty()) {
        return QuietTable::moveCursor(action, modifiers);
    }
    const bool is_far = modifiers.testFlag(Qt::ControlModifier);
    switch (action) {
    case MoveUp:
        return model()->index(step(rows, at.row(), -1), at.column());
    case MoveDown:
        return model()->index(step(rows, at.row(), 1), at.column());
    case MoveLeft:
        return model()->index(at.row(), step(columns, at.column(), -1));
    case MoveRight:
        return model()->index(at.row(), step(columns, at.column(), 1));
    case MoveHome:
        return model()->index(is_far ? rows.front() : at.row(), columns.front());
    case MoveEnd:
        return model()->index(is_far ? rows.back() : at.row(), columns.back());
    default:
        return QuietTable::moveCursor(action, modifiers);
    }
}

// The pointer in the room of the heads is taken as in the table's own.
bool FillingTable::pass_on(QWidget &from, QEvent &event) {
    const auto here = [&](QPoint at) { return viewport()->mapFrom(this, from.mapTo(this, at)); };
    switch (event.type()) {
    case QEvent::MouseButtonPress:
    case QEvent::MouseButtonRelease:
    case QEvent::MouseButtonDblClick: {
        const auto &mouse = static_cast<QMouseEvent &>(event);
        const QPoint at = here(mouse.position().toPoint());
        if (!pinned_at(at).isValid()) {
            return false;
        }
        QMouseEvent same(mouse.type(), at, mouse.globalPosition(), mouse.button(), mouse.buttons(), mouse.modifiers());
        QCoreApplication::sendEvent(viewport(), &same);
        return true;
    }
    case QEvent::ToolTip: {
        const auto &help = static_cast<QHelpEvent &>(event);
        if (!pinned_at(here(help.pos())).isValid()) {
            return false;
        }
        QHelpEvent same(QEvent::ToolTip, here(help.pos()), help.globalPos());
        QCoreApplication::sendEvent(viewport(), &same);
        return true;
    }
    default:
        return false;
    }
}

bool FillingTable::eventFilter(QObject *watched, QEvent *event) {
    if (watched == corner_ && event->type() == QEvent::Paint) {
        paint_corner();
        return true;
    }
    auto *beside = qobject_cast<QWidget *>(watched);
    const bool is_beside =
        beside && (beside == corner_ || beside == heads_->viewport() || beside == row_heads_->viewport());
    return (is_beside && pass_on(*beside, *event)) || QuietTable::eventFilter(watched, event);
}

// By the delegate, as every cell.
void FillingTable::paint_pinned(QPainter &painter, const QModelIndex &index) const {
    QStyleOptionViewItem option;
    initViewItemOption(&option);
    option.rect = visualRect(index);
    if (selectionModel() && selectionModel()->isSelected(index)) {
        option.state |= QStyle::State_Selected;
    }
    option.state.setFlag(QStyle::State_HasFocus, hasFocus() && currentIndex() == index);
    itemDelegate()->paint(&painter, option, index);
}

void FillingTable::paint_pinned_row(QPainter &painter) const {
    if (!pinned_row_) {
        return;
    }
    painter.translate(0, heads_->height());
    for (int column = 0; column < heads_->count(); ++column) {
        const QModelIndex index = model()->index(*pinned_row_, column);
        if (!isColumnHidden(column) && visualRect(index).right() >= 0 &&
            visualRect(index).left() < heads_->viewport()->width()) {
            paint_pinned(painter, index);
        }
    }
    const int thick = thin(fontMetrics());
    painter.fillRect(QRect(0, -thick, heads_->width(), thick), palette().color(QPalette::Text));
}

void FillingTable::paint_pinned_column(QPainter &painter) const {
    if (!pinned_column_) {
        return;
    }
    painter.translate(row_heads_->width(), 0);
    for (int row = 0; row < row_heads_->count(); ++row) {
        const QModelIndex index = model()->index(row, *pinned_column_);
        if (!isRowHidden(row) && visualRect(index).bottom() >= 0 &&
            visualRect(index).top() < row_heads_->viewport()->height()) {
            paint_pinned(painter, index);
        }
    }
    const int thick = thin(fontMetrics());
    painter.fillRect(QRect(-thick, 0, thick, row_heads_->height()), hairline(palette()));
}

// The corner between the heads of columns and rows is as plain as they are, and has what is pinned of both.
void FillingTable::paint_corner() const {
    QPainter painter(corner_);
    const int thick = thin(fontMetrics());
    const QSize all = corner_->size();
    painter.translate(all.width(), all.height());
    painter.fillRect(QRect(-all.width(), -all.height(), all.width(), all.height()), palette().color(QPalette::Base));
    painter.fillRect(QRect(-all.width(), -pinned_height() - thick, all.width(), thick), muted(palette()));
    if (!model() || model()->rowCount() == 0) {
        return;
    }
    if (pinned_column_) {
        heads_->paint_head(painter,
                           QRect(-pinned_width(), -all.height(), pinned_width(), all.height() - pinned_height()),
                           *pinned_column_);
    }
    if (pinned_row_) {
        row_heads_->paint_head(painter,
                               QRect(-all.width(), -pinned_height(), all.width() - pinned_width(), pinned_height()),
                               *pinned_row_);
    }
    if (pinned_row_ && pinned_column_) {
        paint_pinned(painter, model()->index(*pinned_row_, *pinned_column_));
    }
    if (pinned_row_) {
        painter.fillRect(QRect(-all.width(), -thick, all.width(), thick), palette().color(QPalette::Text));
    }
    if (pinned_column_) {
        painter.fillRect(QRect(-thick, -all.height(), thick, all.height()), hairline(palette()));
    }
}

void FillingTable::update_heads() {
    heads_->viewport()->update();
    row_heads_->viewport()->update();
    if (corner_) {
        corner_->update();
    }
}

void FillingTable::currentChanged(const QModelIndex &current, const QModelIndex &previous) {
    QuietTable::currentChanged(current, previous);
    update_heads();
}

void FillingTable::selectionChanged(const QItemSelection &selected, const QItemSelection &deselected) {
    QuietTable::selectionChanged(selected, deselected);
    update_heads();
}

// Keys.

void FillingTable::keyPressEvent(QKeyEvent *event) {
    if (event->matches(QKeySequence::Copy)) {
        copy_chosen();
        event->accept();
        return;
    }
    QuietTable::keyPressEvent(event);
}

void FillingTable::copy_chosen() const {
    QModelIndexList chosen = selectionModel() ? selectionModel()->selectedIndexes() : QModelIndexList();
    if (chosen.isEmpty() && currentIndex().isValid()) {
        chosen.append(currentIndex());
    }
    std::sort(chosen.begin(), chosen.end());
    QStringList cells;
    for (const QModelIndex &index : chosen) {
        if (!isColumnHidden(index.column()) || index.column() == pinned_column_) {
            cells.append(index.data().toString());
        }
    }
    if (!cells.isEmpty()) {
        QApplication::clipboard()->setText(cells.join(QLatin1Char('\t')));
    }
}

} // namespace client
