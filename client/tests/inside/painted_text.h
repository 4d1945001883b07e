// The texts that a widget paints: what a person could read in a picture of it, also what no widget holds, such as the
// amounts beside a chart, and what is cut short, as it is cut.
#pragma once

#include <QRectF>
#include <QStringList>
#include <QWidget>

#include <vector>

// One line for each line of letters, in the order in which they are painted; " | " between texts that stand apart.
QStringList painted_text(QWidget &widget);

// A text with its place.
struct Painted {
    QString text;
    QRectF place;  // in the widget
    bool is_whole; // nothing of it lies outside what is painted on, from its left edge to its right
};

std::vector<Painted> painted_places(QWidget &widget);

// What is painted from one side of a place to the other, read from left to right; empty where nothing is, or not all of
// it fits.
QString painted_within(const std::vector<Painted> &all, const QRect &place);
