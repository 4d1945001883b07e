#include "plain_header.h"

#include "cell_delegate.h"
#include "laid_text.h"
#include "look.h"

#include <QAbstractItemModel>
#include <QFontMetrics>
#include <QItemSelectionModel>
#include <QPainter>
#include <QPaintEvent>
#include <QStringList>
#include <QTableView>

#include <algorithm>

namespace client {

PlainHeader::PlainHeader(Qt::Orientation orientation, QWidget *parent) : QHeaderView(orientation, parent) {
    setMinimumSectionSize(0);
    setHighlightSections(false);
    setSectionsClickable(false);
}

QString PlainHeader::head(int section) const {
    return model()->headerData(section, orientation()).toString();
}

int PlainHeader::least_width(int section) const {
    const QString text = head(section);
    // A head that has lines of its own keeps them; any other is broken into three at most.
    const bool has_lines = text.contains(QLatin1Char('\n'));
    const auto width = [this](const QString &part) { return LaidText(part, font()).size().width(); };
    int widest = has_lines ? 0 : width(text) * 2 / 5;
    for (const QString &part : text.split(QLatin1Char(has_lines ? '\n' : ' '))) {
        widest = std::max(widest, width(part));
    }
    return widest;
}

int PlainHeader::needed_height() const {
    int tallest = fontMetrics().height();
    for (int section = 0; section < count(); ++section) {
        if (!isSectionHidden(section)) {
            const QRect room(0, 0, std::max(1, sectionSize(section) - 2 * side_of(*this)), lines(*this, 20));
            tallest = std::max(tallest, fontMetrics().boundingRect(room, Qt::TextWordWrap, head(section)).height());
        }
    }
    return tallest + lines(*this, 0.5);
}

void PlainHeader::lend(int room, std::function<void(QPainter &)> paint) {
    lent_ = room;
    paint_lent_ = std::move(paint);
}

QRect PlainHeader::place_of(int section) const {
    const int at = sectionViewportPosition(section);
    return orientation() == Qt::Horizontal ? QRect(at, 0, sectionSize(section), viewport()->height() - lent_)
                                           : QRect(0, at, viewport()->width() - lent_, sectionSize(section));
}

void PlainHeader::paintEvent(QPaintEvent *event) {
    QPainter painter(viewport());
    painter.fillRect(event->rect(), palette().color(QPalette::Base));
    for (int section = 0; section < count(); ++section) {
        if (!isSectionHidden(section) && place_of(section).intersects(event->rect())) {
            paintSection(&painter, place_of(section), section);
        }
    }
    if (paint_lent_) {
        paint_lent_(painter);
    }
}

int PlainHeader::alignment(int section) const {
    const QVariant wanted = model()->headerData(section, orientation(), Qt::TextAlignmentRole);
    return wanted.isValid() ? wanted.toInt() : static_cast<int>(defaultAlignment());
}

void PlainHeader::paintSection(QPainter *painter, const QRect &place, int section) const {
    paint_head(*painter, place, section);
}

void PlainHeader::paint_head(QPainter &painter, const QRect &place, int section) const {
    painter.save();
    painter.setFont(font());
    if (orientation() == Qt::Horizontal) {
        paint_top(painter, place, section);
    } else {
        paint_side(painter, place, section);
    }
    painter.restore();
}

void PlainHeader::paint_top(QPainter &painter, const QRect &place, int section) const {
    const int above = lines(*this, 0.2);
    QRect inside = place.adjusted(side_of(*this), above, -side_of(*this), -above);
    if (model()->headerData(section, orientation(), CellDelegate::void_role).toBool()) {
        paint_hatching(painter, place, muted(palette()));
        // The head is read all the same.
        const QRect text = painter.boundingRect(inside, alignment(section), head(section));
        painter.fillRect(text.adjusted(-2, 0, 2, 0), palette().color(QPalette::Base));
    }
    painter.setPen(muted(palette()));
    QStringList parts = head(section).split(QLatin1Char('\n'));
    // Lines of their own are set one by one, from below: those of several scripts would differ in height.
    while (parts.size() > 1) {
        const QRect line(inside.left(), inside.bottom() + 1 - fontMetrics().height(), inside.width(),
                         fontMetrics().height());
        painter.drawText(line, (alignment(section) & Qt::AlignHorizontal_Mask) | Qt::AlignVCenter, parts.takeLast());
        inside.setBottom(line.top() - 1);
    }
    painter.drawText(inside, alignment(section) | Qt::TextWordWrap, parts.first());
    const int thick = thin(fontMetrics());
    painter.fillRect(QRect(place.left(), place.bottom() + 1 - thick, place.width(), thick), muted(palette()));
}

// The head of a row looks like its cells: chosen where they are, on the same ground.
void PlainHeader::paint_side(QPainter &painter, const QRect &place, int section) const {
    const auto *table = qobject_cast<const QTableView *>(parentWidget());
    const bool is_chosen = selectionModel() && selectionModel()->isRowSelected(section);
    const bool is_darker = table && table->alternatingRowColors() && section % 2 == 1 && !isSectionHidden(section);
    const QPalette::ColorRole ground = is_chosen   ? QPalette::Highlight
                                       : is_darker ? QPalette::AlternateBase
                                                   : QPalette::Base;
    // What is lent has the same ground.
    painter.fillRect(place.adjusted(0, 0, lent_, 0), palette().color(ground));
    const QRect inside = place.adjusted(side_of(*this), 0, -side_of(*this), 0);
    painter.setFont(model()->headerData(section, Qt::Vertical, Qt::FontRole).isValid() ? scaled(font(), 1, QFont::Bold)
                                                                                       : font());
    painter.setPen(palette().color(is_chosen ? QPalette::HighlightedText : QPalette::Text));
    painter.drawText(inside, alignment(section),
                     painter.fontMetrics().elidedText(head(section), Qt::ElideRight, inside.width()));
}

} // namespace client
