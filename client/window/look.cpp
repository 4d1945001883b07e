#include "look.h"

#include <QApplication>
#include <QFontMetricsF>
#include <QLabel>
#include <QLayout>
#include <QPainter>
#include <QStringList>
#include <QToolTip>
#include <QWidget>

#include <algorithm>
#include <cmath>

namespace client {

namespace {

constexpr double readable = 4.5;

// The part of a colour's brightness that one of its channels has (WCAG 2).
double linear(double channel) {
    return channel <= 0.04045 ? channel / 12.92 : std::pow((channel + 0.055) / 1.055, 2.4);
}

double luminance(const QColor &colour) {
    return 0.2126 * linear(colour.redF()) + 0.7152 * linear(colour.greenF()) + 0.0722 * linear(colour.blueF());
}

bool is_readable(const QColor &colour, const QPalette &palette) {
    return contrast(colour, palette.color(QPalette::Base)) >= readable &&
           contrast(colour, palette.color(QPalette::Window)) >= readable;
}

QColor between(const QColor &from, const QColor &to, float part) {
    return QColor::fromRgbF(from.redF() + (to.redF() - from.redF()) * part,
                            from.greenF() + (to.greenF() - from.greenF()) * part,
                            from.blueF() + (to.blueF() - from.blueF()) * part);
}

} // namespace

QFont scaled(const QFont &font, double times, QFont::Weight weight) {
    QFont other = font;
    if (font.pointSizeF() > 0) {
        other.setPointSizeF(font.pointSizeF() * times);
    } else {
        other.setPixelSize(static_cast<int>(std::lround(font.pixelSize() * times)));
    }
    other.setWeight(weight);
    return other;
}

int letters(const QWidget &widget, double count) {
    return static_cast<int>(std::lround(QFontMetricsF(widget.font()).horizontalAdvance(QLatin1Char('0')) * count));
}

int lines(const QWidget &widget, double count) {
    return static_cast<int>(std::lround(QFontMetricsF(widget.font()).height() * count));
}

int side_of(const QWidget &table) {
    return letters(table, 1);
}

double contrast(const QColor &one, const QColor &other) {
    const double first = luminance(one) + 0.05;
    const double second = luminance(other) + 0.05;
    return std::max(first, second) / std::min(first, second);
}

QColor muted(const QPalette &palette) {
    for (const QColor grey : {QColor(0x5a, 0x5a, 0x5a), QColor(0xb4, 0xb4, 0xb4)}) {
        if (is_readable(grey, palette)) {
            return grey;
        }
    }
    return palette.color(QPalette::Text);
}

QColor hairline(const QPalette &palette) {
    return between(palette.color(QPalette::Base), palette.color(QPalette::Text), 0.16F);
}

void mute(QLabel &label) {
    QPalette palette = QApplication::palette(&label);
    const QColor grey = muted(palette);
    palette.setColor(QPalette::WindowText, grey);
    palette.setColor(QPalette::Text, grey);
    label.setPalette(palette);
}

int thin(const QFontMetrics &metrics) {
    return std::max(1, static_cast<int>(std::lround(metrics.height() / 16.0)));
}

void paint_hatching(QPainter &painter, const QRect &place, const QColor &colour) {
    painter.fillRect(place, QBrush(colour, Qt::BDiagPattern));
}

void paint_focus(QPainter &painter, const QRect &around, const QPalette &palette) {
    const int thick = 2 * thin(painter.fontMetrics());
    const int half = thick / 2;
    painter.setPen(QPen(palette.color(QPalette::Highlight), thick, Qt::SolidLine, Qt::SquareCap, Qt::MiterJoin));
    painter.setBrush(Qt::NoBrush);
    painter.drawRect(around.adjusted(half, half, -half, -half));
}

void set_page_margins(QWidget &page) {
    page.layout()->setContentsMargins(letters(page, 1.5), lines(page, 0.7), letters(page, 1.5), lines(page, 0.5));
}

QLabel *plain_label(QWidget *parent) {
    auto *label = new QLabel(parent);
    label->setTextFormat(Qt::PlainText);
    label->setWordWrap(true);
    return label;
}

QString tool_tip(const QString &plain) {
    return plain.isEmpty() ? QString() : Qt::convertFromPlainText(plain, Qt::WhiteSpaceNormal);
}

void explain_button(QWidget &button, const QString &plain) {
    button.setToolTip(tool_tip(plain));
    button.setAccessibleDescription(plain);
}

void forget_tool_tips() {
    // hideText() lets a tip stay for a moment: its text goes at once.
    for (QWidget *widget : QApplication::topLevelWidgets()) {
        if (auto *tip = widget->inherits("QTipLabel") ? qobject_cast<QLabel *>(widget) : nullptr) {
            tip->clear();
            tip->hide();
        }
    }
    QToolTip::hideText();
}

} // namespace client
