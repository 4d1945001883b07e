// Where everything of a day's chart stands: a function of the day, the size and the font. Nothing is painted here.
#pragma once

#include "view.h"

#include <QFontMetrics>
#include <QRect>
#include <QString>

#include <optional>
#include <vector>

namespace client {

// What a quarter is marked with, in the order of the legend.
enum class Mark { earned, paid, before, corrected, averaged, missing, without, absent };

std::vector<Mark> marks_of(const PlantQuarter &quarter);
Word word_of(Mark mark);

// The axis of one side, from 0 outwards. Amounts are above 0.
struct Side {
    Fen reach; // where it ends, a whole number of steps
    Fen step;  // 1, 2 or 5 and noughts
};

struct LegendEntry {
    Mark mark;
    QRect place;
};

struct ChartPlan {
    std::vector<LegendEntry> legend; // marks that occur in the day
    QRect note;                      // says that there are two scales; empty where there is one
    QRect axis;                      // amounts, at the left of the plot
    QRect marks;                     // a strip above the plot: a mark for a quarter
    QRect plot;                      // the bars
    QRect hours;                     // below the plot
    Side up, down;
    int zero = 0;      // the height at which 0 yuan stands
    int least_bar = 1; // an amount is never so small that nothing is seen of it

    QRect column(int number) const;
    // The bar above a quarter that the thermal average rules. It leaves room for a sign, and quarters beside one
    // another make one line.
    QRect lid(int number) const;
    int height_of(Fen amount) const;
    // The quarter at a place, if there is one.
    std::optional<Quarter> quarter_at(QPoint place) const;
};

ChartPlan plan_chart(const PlantDay &day, QSize size, const QFontMetrics &metrics, Tongue tongue);

// An amount of the axis: without fen where every step is whole yuan.
QString axis_text(Fen amount, Fen step);

} // namespace client
