#include "cell_delegate.h"

#include "laid_text.h"
#include "look.h"

#include <QFontMetrics>
#include <QPainter>
#include <QTableView>

#include <algorithm>

namespace client {

namespace {

QFont font_of(const QStyleOptionViewItem &option, const QModelIndex &index) {
    return index.data(Qt::FontRole).isValid() ? scaled(option.font, 1, QFont::Bold) : option.font;
}

bool is_chosen(const QStyleOptionViewItem &option) {
    return option.state.testFlag(QStyle::State_Selected);
}

bool is_of_figure(QChar letter) {
    return letter.isDigit() || QStringView(u",.+\u2212").contains(letter);
}

// A text cut short, but not within a figure: a part of a figure is another figure.
QString cut_short(const QString &whole, const QFont &font, int width) {
    const QString cut = QFontMetrics(font).elidedText(whole, Qt::ElideRight, width);
    qsizetype end = cut.size() - 1;
    if (cut == whole || end <= 0 || !is_of_figure(whole[end])) {
        return cut;
    }
    while (end > 0 && is_of_figure(whole[end - 1])) {
        --end;
    }
    return whole.left(end) + QChar(0x2026);
}

QColor ink(const QStyleOptionViewItem &option, const QModelIndex &index) {
    return is_chosen(option)                               ? option.palette.color(QPalette::HighlightedText)
           : index.data(CellDelegate::muted_role).toBool() ? muted(option.palette)
                                                           : option.palette.color(QPalette::Text);
}

} // namespace

QVariant bold_if(bool is_bold) {
    QFont bold;
    bold.setBold(true);
    return is_bold ? QVariant(bold) : QVariant();
}

bool is_figure(const QModelIndex &index) {
    return index.data(Qt::TextAlignmentRole).toInt() & Qt::AlignRight;
}

CellDelegate::CellDelegate(QTableView *view) : QStyledItemDelegate(view), view_(view) {}

int CellDelegate::side() const {
    return side_of(*view_);
}

int CellDelegate::above() const {
    return lines(*view_, 0.22);
}

int CellDelegate::fine() const {
    return thin(view_->fontMetrics());
}

// Whether the table ends within a cell, from side to side. Where a table has less room than one cell needs, all of it
// is painted as far as it goes.
bool CellDelegate::is_cut_by_edge(const QRect &place) const {
    const int end = view_->viewport()->width();
    const bool is_cut = (place.left() < end && place.right() >= end) || (place.left() < 0 && place.right() >= 0);
    return is_cut && place.width() <= end;
}

void CellDelegate::paint(QPainter *painter, const QStyleOptionViewItem &option, const QModelIndex &index) const {
    painter->save();
    paint_ground(*painter, option, index);
    paint_text(*painter, option, index);
    paint_lines(*painter, option, index);
    if (option.state.testFlag(QStyle::State_HasFocus)) {
        const QPalette::ColorRole frame = is_chosen(option) ? QPalette::HighlightedText : QPalette::Highlight;
        painter->setPen(QPen(option.palette.color(frame), fine()));
        painter->drawRect(option.rect.adjusted(0, 0, -1, -1));
    }
    painter->restore();
}

void CellDelegate::paint_ground(QPainter &painter, const QStyleOptionViewItem &option, const QModelIndex &index) const {
    if (is_chosen(option)) {
        painter.fillRect(option.rect, option.palette.color(QPalette::Highlight));
    }
    if (index.data(void_role).toBool()) {
        const QColor colour =
            is_chosen(option) ? option.palette.color(QPalette::HighlightedText) : muted(option.palette);
        paint_hatching(painter, option.rect, colour);
    }
}

// Where there is no room for a figure, a sign says that there is more.
QString CellDelegate::shown_text(const QStyleOptionViewItem &option, const QModelIndex &index, int width) const {
    const QString whole = index.data().toString();
    if (!is_figure(index)) {
        return cut_short(whole, font_of(option, index), width);
    }
    return is_cut_by_edge(option.rect) && !whole.isEmpty() ? QString(QChar(0x2026)) : whole;
}

void CellDelegate::paint_text(QPainter &painter, const QStyleOptionViewItem &option, const QModelIndex &index) const {
    QRect inside = option.rect.adjusted(side(), 0, -side(), 0);
    if (!is_figure(index) && is_cut_by_edge(option.rect)) {
        inside.setRight(std::min(inside.right(), view_->viewport()->width() - side()));
    }
    const bool wraps = view_->wordWrap() && !is_figure(index) && option.rect.height() > lines(*view_, 2);
    const QString text = wraps ? index.data().toString() : shown_text(option, index, inside.width());
    if (text.isEmpty()) {
        return;
    }
    const LaidText laid(text, font_of(option, index), wraps ? std::optional(inside.width()) : std::nullopt);
    const bool is_cut_at_right = is_cut_by_edge(option.rect) && option.rect.left() >= 0;
    const bool at_right = is_figure(index) && !is_cut_at_right;
    const bool at_top = wraps || index.data(Qt::TextAlignmentRole).toInt() & Qt::AlignTop;
    const QPoint at(at_right ? inside.right() + 1 - laid.size().width() : inside.left(),
                    at_top ? inside.top() + above() : inside.top() + (inside.height() - laid.size().height()) / 2);
    painter.setPen(ink(option, index));
    laid.paint(painter, at);
    if (index.data(open_role).toBool()) {
        painter.setPen(QPen(ink(option, index), fine(), Qt::DashLine, Qt::FlatCap));
        const int below = std::min(at.y() + laid.size().height(), inside.bottom() - fine());
        painter.drawLine(at.x(), below, at.x() + laid.size().width(), below);
    }
}

void CellDelegate::paint_lines(QPainter &painter, const QStyleOptionViewItem &option, const QModelIndex &index) const {
    const QRect &place = option.rect;
    if (index.data(result_role).toBool()) {
        painter.fillRect(QRect(place.left(), place.top(), place.width(), 2 * fine()),
                         option.palette.color(QPalette::Text));
    } else if (is_ruled_ && index.row() > 0) {
        painter.fillRect(QRect(place.left(), place.top(), place.width(), fine()), hairline(option.palette));
    }
}

QSize CellDelegate::sizeHint(const QStyleOptionViewItem &option, const QModelIndex &index) const {
    const int column = view_->columnWidth(index.column());
    const bool wraps = view_->wordWrap() && !is_figure(index);
    const LaidText laid(index.data().toString(), font_of(option, index),
                        wraps ? std::optional(column - 2 * side()) : std::nullopt);
    return {column, laid.size().height() + 2 * above()};
}

} // namespace client
