// What all screens look alike by: sizes in letters, the two colours, the grey of void figures, plain text everywhere.
#pragma once

#include "shown.h"

#include <QColor>
#include <QFont>
#include <QFontMetrics>
#include <QPalette>

class QLabel;
class QPainter;
class QWidget;

namespace client {

// The two colours that people with any kind of colour sight tell apart. Everything else is the palette's.
inline constexpr QColor earned_colour{0x00, 0x72, 0xB2};
inline constexpr QColor paid_colour{0xD5, 0x5E, 0x00};

// A font so many times as large.
QFont scaled(const QFont &font, double times, QFont::Weight weight = QFont::Normal);
// The width of so many digits, and the height of so many lines, in the widget's font.
int letters(const QWidget &widget, double count);
int lines(const QWidget &widget, double count);
// What stands at either side of a cell's or a head's text. Twice this, and not the width of two letters: that may be a
// hair less, and then the text is cut.
int side_of(const QWidget &table);

// How well one colour is read on the other, 1 to 21 (WCAG 2).
double contrast(const QColor &one, const QColor &other);
// For what counts less: void figures, zeros, remarks. A contrast of 4.5 at least.
QColor muted(const QPalette &palette);
// A fine line between the background and the text.
QColor hairline(const QPalette &palette);
// A label whose text is muted, as its palette is now.
void mute(QLabel &label);
// How thick a fine line is in this font.
int thin(const QFontMetrics &metrics);
// The ground of a quarter that can have no figure, in the chart and in tables.
void paint_hatching(QPainter &painter, const QRect &place, const QColor &colour);
// The frame around what has the keys.
void paint_focus(QPainter &painter, const QRect &around, const QPalette &palette);

// The margins of a screen.
void set_page_margins(QWidget &page);
// A label that never takes a file's name for rich text.
QLabel *plain_label(QWidget *parent);
// A tool tip that says just this: Qt would take a text that looks like HTML for rich text.
QString tool_tip(const QString &plain);
// What a button does, as its tool tip and, without markup, for screen readers.
void explain_button(QWidget &button, const QString &plain);
// No tool tip that is up, or fading away, keeps a figure.
void forget_tool_tips();

} // namespace client
