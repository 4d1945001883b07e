#include "laid_text.h"

#include "look.h"

#include <QPainter>

#include <algorithm>
#include <cmath>

namespace client {

namespace {

// Longer than any text.
constexpr int no_end = 1'000'000;

QString on_lines(QString text, bool is_wrapped) {
    return text.replace(QLatin1Char('\n'), is_wrapped ? QChar(QChar::LineSeparator) : QLatin1Char(' '));
}

} // namespace

LaidText::LaidText(const QString &text, const QFont &font, std::optional<int> within)
    : layout_(on_lines(text, within.has_value()), font) {
    QTextOption how(Qt::AlignLeft);
    how.setWrapMode(within ? QTextOption::WrapAtWordBoundaryOrAnywhere : QTextOption::ManualWrap);
    layout_.setTextOption(how);
    double width = 0;
    double height = 0;
    layout_.beginLayout();
    for (QTextLine line = layout_.createLine(); line.isValid(); line = layout_.createLine()) {
        line.setLineWidth(std::max(1, within.value_or(no_end)));
        line.setPosition({0, height});
        width = std::max(width, line.naturalTextWidth());
        height += line.height();
    }
    layout_.endLayout();
    size_ = {static_cast<int>(std::ceil(width)), static_cast<int>(std::ceil(height))};
}

void LaidText::paint(QPainter &painter, QPoint at) const {
    layout_.draw(&painter, at);
}

TextWidths::TextWidths(const QFont &font) : plain_(begin(font)), bold_(begin(scaled(font, 1, QFont::Bold))) {}

TextWidths::Known TextWidths::begin(const QFont &font) {
    Known known{font, QLatin1Char('0'), {}};
    int widest = 0;
    for (char digit = '0'; digit <= '9'; ++digit) {
        const int width = LaidText(QString(8, QLatin1Char(digit)), font).size().width();
        if (width > widest) {
            widest = width;
            known.widest_digit = QLatin1Char(digit);
        }
    }
    return known;
}

int TextWidths::of(const QString &text, bool is_bold) {
    Known &known = is_bold ? bold_ : plain_;
    QString form = text;
    for (QChar &letter : form) {
        if (letter >= QLatin1Char('0') && letter <= QLatin1Char('9')) {
            letter = known.widest_digit;
        }
    }
    const auto found = known.widths.constFind(form);
    if (found != known.widths.constEnd()) {
        return *found;
    }
    const int width = LaidText(form, known.font).size().width();
    known.widths.insert(form, width);
    return width;
}

} // namespace client
