// The chart of a day painted by its plan: two colours for what is earned and paid, the palette's for everything else.
#pragma once

#include "chart_plan.h"

#include <QColor>
#include <QPalette>

class QPainter;

namespace client {

class ChartPainting {
  public:
    ChartPainting(QPainter &painter, ChartPlan plan, const QPalette &palette, Tongue tongue);

    void paint(const PlantDay &day, std::optional<Quarter> chosen);

  private:
    void paint_legend();
    void paint_swatch(QRect place, Mark mark);
    void paint_axis();
    void paint_side(const Side &side, int sign);
    void paint_amount(Fen amount, Fen step);
    void paint_hours();
    void paint_choice(Quarter chosen);
    void paint_frame(Quarter chosen);
    void paint_quarter(const PlantQuarter &quarter, int number);
    void paint_bar(QRect column, Fen amount);
    void paint_outline(QRect column, Fen amount);
    void paint_hatching(QRect place);
    void paint_sign(QRect place, Mark mark);

    QRect bar(QRect column, Fen amount) const;

    QPainter &painter_;
    ChartPlan plan_;
    QPalette palette_;
    QColor ink_, grey_, fine_;
    int thin_;
    Tongue tongue_;
};

} // namespace client
