#include "chart_painting.h"

#include "look.h"
#include "shown.h"

#include <QPainter>
#include <QPainterPath>

#include <algorithm>
#include <cmath>

namespace client {

namespace {

constexpr int hours_of_day = 24;
constexpr int quarters_of_hour = 4;

// The largest square in the middle of a place.
QRect square(QRect place) {
    const int side = std::min(place.width(), place.height());
    return {place.center().x() - side / 2, place.center().y() - side / 2, side, side};
}

} // namespace

ChartPainting::ChartPainting(QPainter &painter, ChartPlan plan, const QPalette &palette, Tongue tongue)
    : painter_(painter), plan_(std::move(plan)), palette_(palette), ink_(palette.color(QPalette::Text)),
      grey_(muted(palette)), fine_(hairline(palette)), thin_(thin(painter.fontMetrics())), tongue_(tongue) {}

void ChartPainting::paint(const PlantDay &day, std::optional<Quarter> chosen) {
    paint_legend();
    paint_axis();
    paint_hours();
    if (chosen) {
        paint_choice(*chosen);
    }
    for (int number = 0; number < static_cast<int>(quarters_of_day); ++number) {
        paint_quarter(day.quarters[static_cast<std::size_t>(number)], number);
    }
    painter_.fillRect(QRect(plan_.plot.left(), plan_.zero, plan_.plot.width(), thin_), ink_);
    if (chosen) {
        paint_frame(*chosen);
    }
}

// The legend, and the note where there are two scales.

void ChartPainting::paint_legend() {
    for (const LegendEntry &entry : plan_.legend) {
        const int side = entry.place.height();
        const int inset = side / 5;
        paint_swatch(QRect(entry.place.topLeft(), QSize(side, side)).adjusted(inset, inset, -inset, -inset),
                     entry.mark);
        painter_.setPen(ink_);
        painter_.drawText(entry.place.adjusted(side, 0, 0, 0), Qt::AlignLeft | Qt::AlignVCenter,
                          words(word_of(entry.mark), tongue_));
    }
    if (!plan_.note.isEmpty()) {
        painter_.setPen(grey_);
        painter_.drawText(plan_.note, Qt::TextWordWrap, words(Word::chart_scales, tongue_));
    }
}

void ChartPainting::paint_swatch(QRect place, Mark mark) {
    switch (mark) {
    case Mark::earned:
        return painter_.fillRect(place, earned_colour);
    case Mark::paid:
        return painter_.fillRect(place, paid_colour);
    case Mark::before:
        painter_.setBrush(Qt::NoBrush);
        painter_.setPen(QPen(ink_, thin_, Qt::DotLine));
        return painter_.drawRect(place);
    case Mark::missing:
        return paint_hatching(place);
    case Mark::averaged:
        return painter_.fillRect(QRect(place.left(), place.center().y(), place.width(), plan_.lid(0).height()), ink_);
    case Mark::corrected:
    case Mark::without:
    case Mark::absent: {
        const int inset = place.width() / 8;
        return paint_sign(place.adjusted(inset, inset, -inset, -inset), mark);
    }
    }
}

void ChartPainting::paint_hatching(QRect place) {
    client::paint_hatching(painter_, place, grey_);
}

// Marks are shapes, not letters of a font that may lack them.
void ChartPainting::paint_sign(QRect place, Mark mark) {
    painter_.save();
    painter_.setRenderHint(QPainter::Antialiasing);
    const QRectF box = square(place);
    if (mark == Mark::corrected) {
        QPainterPath diamond(QPointF(box.center().x(), box.top()));
        diamond.lineTo(box.right(), box.center().y());
        diamond.lineTo(box.center().x(), box.bottom());
        diamond.lineTo(box.left(), box.center().y());
        diamond.closeSubpath();
        painter_.fillPath(diamond, ink_);
    } else {
        painter_.setPen(QPen(ink_, 1.6 * thin_));
        painter_.setBrush(Qt::NoBrush);
        if (mark == Mark::absent) {
            painter_.drawEllipse(box);
        } else {
            painter_.drawLine(box.topLeft(), box.bottomRight());
            painter_.drawLine(box.topRight(), box.bottomLeft());
        }
    }
    painter_.restore();
}

// Axis and hours.

void ChartPainting::paint_axis() {
    const int line = plan_.marks.height();
    painter_.setPen(grey_);
    painter_.drawText(QRect(plan_.axis.left(), plan_.axis.top() - line / 3, plan_.axis.width(), line),
                      Qt::AlignRight | Qt::AlignVCenter, words(Word::chart_axis, tongue_));
    paint_side(plan_.up, 1);
    paint_side(plan_.down, -1);
    paint_amount({}, plan_.up.step);
}

void ChartPainting::paint_side(const Side &side, int sign) {
    for (Fen amount = side.step; amount <= side.reach && side.step > Fen{}; amount += side.step) {
        paint_amount({sign * amount.count}, side.step);
    }
}

void ChartPainting::paint_amount(Fen amount, Fen step) {
    const int at = plan_.height_of(amount);
    const int line = painter_.fontMetrics().height();
    painter_.fillRect(QRect(plan_.plot.left(), at, plan_.plot.width(), thin_), fine_);
    painter_.setPen(ink_);
    painter_.drawText(QRect(plan_.axis.left(), at - line / 2, plan_.axis.width(), line),
                      Qt::AlignRight | Qt::AlignVCenter, axis_text(amount, step));
}

void ChartPainting::paint_hours() {
    const QFontMetrics metrics = painter_.fontMetrics();
    const int label = metrics.horizontalAdvance(text(start({}))) * 3 / 2;
    int each = 1;
    for (const int hours : {1, 2, 3, 4, 6, 12}) {
        each = hours;
        if (plan_.plot.width() * hours / hours_of_day >= label) {
            break;
        }
    }
    painter_.setPen(ink_);
    const int bottom = plan_.plot.bottom() + 1;
    for (int hour = 0; hour < hours_of_day; hour += each) {
        const int at = plan_.column(hour * quarters_of_hour).left();
        const QString name = text(start({static_cast<std::uint8_t>(hour * quarters_of_hour)}));
        painter_.fillRect(QRect(at, bottom, thin_, metrics.height() / 4), grey_);
        painter_.drawText(QRect(at - label / 2, bottom + metrics.height() / 4, label, metrics.height()),
                          Qt::AlignHCenter | Qt::AlignTop, name);
    }
}

// The chosen quarter: a band behind its bar, and a frame and a pointer that are seen where the band is not.

void ChartPainting::paint_choice(Quarter chosen) {
    QColor band = palette_.color(QPalette::Highlight);
    band.setAlphaF(0.25F);
    painter_.fillRect(
        plan_.column(chosen.number).united(QRect(plan_.column(chosen.number).left(), plan_.marks.top(), 1, 1)), band);
}

void ChartPainting::paint_frame(Quarter chosen) {
    const QRect column = plan_.column(chosen.number);
    const QColor colour = palette_.color(QPalette::Highlight);
    painter_.setPen(QPen(colour, thin_));
    painter_.setBrush(Qt::NoBrush);
    painter_.drawRect(
        QRect(QPoint(column.left() - thin_, plan_.marks.top()), QPoint(column.right() + 1, column.bottom())));
    painter_.save();
    painter_.setRenderHint(QPainter::Antialiasing);
    const double half = painter_.fontMetrics().height() / 3.0;
    const QPointF tip(QRectF(column).center().x(), column.bottom() + thin_);
    QPainterPath pointer(tip);
    pointer.lineTo(tip + QPointF(half, 1.3 * half));
    pointer.lineTo(tip + QPointF(-half, 1.3 * half));
    pointer.closeSubpath();
    painter_.fillPath(pointer, colour);
    painter_.restore();
}

// A quarter: its bar, what it was before, its mark.

void ChartPainting::paint_quarter(const PlantQuarter &quarter, int number) {
    const QRect column = plan_.column(number);
    for (const Mark mark : marks_of(quarter)) {
        switch (mark) {
        case Mark::earned:
        case Mark::paid:
            paint_bar(column, quarter.line->net());
            break;
        case Mark::before:
            paint_outline(column, quarter.before->net());
            break;
        case Mark::missing:
            paint_hatching(column);
            break;
        case Mark::averaged:
            painter_.fillRect(plan_.lid(number), ink_);
            break;
        case Mark::corrected:
        case Mark::without:
        case Mark::absent: {
            const int side = painter_.fontMetrics().height() / 2;
            paint_sign(QRect(column.center().x() - side / 2, plan_.marks.center().y() - side / 2, side, side), mark);
            break;
        }
        }
    }
}

QRect ChartPainting::bar(QRect column, Fen amount) const {
    const int end = plan_.height_of(amount);
    const int gap = column.width() > 3 * thin_ ? thin_ : 0;
    return QRect(column.left(), std::min(end, plan_.zero), std::max(1, column.width() - gap),
                 std::abs(end - plan_.zero));
}

void ChartPainting::paint_bar(QRect column, Fen amount) {
    painter_.fillRect(bar(column, amount), amount > Fen{} ? earned_colour : paid_colour);
}

void ChartPainting::paint_outline(QRect column, Fen amount) {
    painter_.setBrush(Qt::NoBrush);
    // A dotted line over a bar of the same length is not seen: a light one below it sets it off.
    painter_.setPen(QPen(palette_.color(QPalette::Base), thin_));
    painter_.drawRect(bar(column, amount).adjusted(0, 0, -1, -1));
    painter_.setPen(QPen(ink_, thin_, Qt::DotLine));
    painter_.drawRect(bar(column, amount).adjusted(0, 0, -1, -1));
}

} // namespace client
