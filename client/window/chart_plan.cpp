#include "chart_plan.h"

#include "shown.h"

#include <algorithm>
#include <cmath>

namespace client {

namespace {

constexpr int quarters = static_cast<int>(quarters_of_day);
// Where one side's largest amount is more than so many times the other's, one scale would make a row of dots of the
// smaller.
constexpr std::int64_t too_far_apart = 20;
constexpr std::int64_t fen_of_yuan = 100;

// The largest amounts of a day, upwards and downwards, before corrections too.
struct Reach {
    Fen up, down;

    bool needs_two_scales() const {
        const std::int64_t smaller = std::min(up.count, down.count);
        return smaller > 0 && std::max(up.count, down.count) > too_far_apart * smaller;
    }
};

Reach reach_of(const PlantDay &day) {
    Reach reach;
    for (const PlantQuarter &quarter : day.quarters) {
        for (const auto &line : {quarter.line, quarter.before}) {
            if (line) {
                reach.up = std::max(reach.up, line->net());
                reach.down = std::max(reach.down, -line->net());
            }
        }
    }
    return reach;
}

// The smallest step of 1, 2 or 5 and noughts by which an amount is reached in so many steps.
Fen round_step(Fen amount, std::int64_t most_steps) {
    if (amount == Fen{}) {
        return {fen_of_yuan};
    }
    for (std::int64_t power = 1;; power *= 10) {
        for (const std::int64_t digit : {1, 2, 5}) {
            if (digit * power * most_steps >= amount.count) {
                return {digit * power};
            }
        }
    }
}

Side side_of(Fen amount, Fen step) {
    return {.reach = {(amount.count + step.count - 1) / step.count * step.count}, .step = step};
}

int tall(const QFontMetrics &metrics, double lines) {
    return static_cast<int>(std::lround(metrics.height() * lines));
}

int wide(const QFontMetrics &metrics, double letters) {
    return static_cast<int>(std::lround(metrics.horizontalAdvance(QLatin1Char('0')) * letters));
}

std::vector<Mark> marks_of_day(const PlantDay &day) {
    std::vector<Mark> all;
    for (const PlantQuarter &quarter : day.quarters) {
        const std::vector<Mark> marks = marks_of(quarter);
        all.insert(all.end(), marks.begin(), marks.end());
    }
    std::sort(all.begin(), all.end());
    all.erase(std::unique(all.begin(), all.end()), all.end());
    return all;
}

// The entries one beside the other, on as many lines as they need.
std::vector<LegendEntry> legend_of(const std::vector<Mark> &marks, int width, const QFontMetrics &metrics,
                                   Tongue tongue) {
    const int gap = wide(metrics, 1);
    const int line = tall(metrics, 1.3);
    std::vector<LegendEntry> legend;
    QPoint at(gap, tall(metrics, 0.4));
    for (const Mark mark : marks) {
        const int length = line + metrics.horizontalAdvance(words(word_of(mark), tongue)) + 3 * gap;
        if (at.x() > gap && at.x() + length > width) {
            at = {gap, at.y() + line};
        }
        legend.push_back({mark, QRect(at, QSize(length, line))});
        at.rx() += length;
    }
    return legend;
}

// Up and down on one scale; or, where they are too far apart, a third of the height for the smaller side on its own.
void divide(ChartPlan &plan, const Reach &reach, const QFontMetrics &metrics) {
    const int height = plan.plot.height();
    const int steps = std::max(3, height / tall(metrics, 1.7));
    double above = 0.5;
    if (reach.needs_two_scales()) {
        above = reach.up > reach.down ? 2.0 / 3 : 1.0 / 3;
        plan.up = side_of(reach.up, round_step(reach.up, std::max(1, static_cast<int>(steps * above))));
        plan.down = side_of(reach.down, round_step(reach.down, std::max(1, static_cast<int>(steps * (1 - above)))));
    } else {
        // Two steps may begin on either side of 0 and be used in part.
        const Fen step = round_step(reach.up + reach.down, std::max(1, steps - 1));
        plan.up = side_of(reach.up, step);
        plan.down = side_of(reach.down, step);
        const Fen both = plan.up.reach + plan.down.reach;
        above = both == Fen{} ? 0.5 : static_cast<double>(plan.up.reach.count) / static_cast<double>(both.count);
    }
    plan.zero = plan.plot.top() + static_cast<int>(std::lround(height * above));
}

int axis_width(const ChartPlan &plan, const QFontMetrics &metrics, Tongue tongue) {
    return std::max({metrics.horizontalAdvance(axis_text(plan.up.reach, plan.up.step)),
                     metrics.horizontalAdvance(axis_text(-plan.down.reach, plan.down.step)),
                     metrics.horizontalAdvance(words(Word::chart_axis, tongue))});
}

} // namespace

std::vector<Mark> marks_of(const PlantQuarter &quarter) {
    const State state = quarter.read->state;
    if (!quarter.read->statement) {
        return {state == State::missing ? Mark::missing : Mark::without};
    }
    std::vector<Mark> marks;
    if (quarter.read->statement->is_averaged()) {
        marks.push_back(Mark::averaged);
    }
    if (!quarter.line) {
        marks.push_back(Mark::absent);
        return marks;
    }
    const Fen net = quarter.line->net();
    if (net != Fen{}) {
        marks.push_back(net > Fen{} ? Mark::earned : Mark::paid);
    }
    if (quarter.before && quarter.before->net() != net) {
        marks.push_back(Mark::before);
    }
    if (state == State::corrected) {
        marks.push_back(Mark::corrected);
    }
    return marks;
}

Word word_of(Mark mark) {
    switch (mark) {
    case Mark::earned:
        return Word::chart_earned;
    case Mark::paid:
        return Word::chart_paid;
    case Mark::before:
        return Word::chart_before;
    case Mark::corrected:
        return Word::chart_corrected;
    case Mark::averaged:
        return Word::chart_averaged;
    case Mark::missing:
        return Word::chart_missing;
    case Mark::without:
        return Word::chart_without;
    case Mark::absent:
        break;
    }
    return Word::chart_absent;
}

QString axis_text(Fen amount, Fen step) {
    return text(step.count % fen_of_yuan == 0 ? text(amount.count / fen_of_yuan) : text(amount));
}

QRect ChartPlan::column(int number) const {
    const auto edge = [this](int n) { return plot.left() + n * plot.width() / quarters; };
    return {edge(number), plot.top(), std::max(1, edge(number + 1) - edge(number)), plot.height()};
}

QRect ChartPlan::lid(int number) const {
    const int thick = std::max(2, marks.height() / 7);
    return {column(number).left(), marks.top() + thick, column(number).width(), thick};
}

int ChartPlan::height_of(Fen amount) const {
    if (amount == Fen{}) {
        return zero;
    }
    const bool is_up = amount > Fen{};
    const int room = is_up ? zero - plot.top() : plot.bottom() + 1 - zero;
    const double reach = static_cast<double>(is_up ? up.reach.count : down.reach.count);
    const double part = std::abs(static_cast<double>(amount.count)) / std::max(1.0, reach);
    const int length = std::max(least_bar, static_cast<int>(std::lround(room * part)));
    return is_up ? zero - length : zero + length;
}

std::optional<Quarter> ChartPlan::quarter_at(QPoint place) const {
    if (place.x() < plot.left() || place.x() > plot.right() || place.y() < marks.top()) {
        return std::nullopt;
    }
    const int number = ((place.x() - plot.left()) * quarters + quarters - 1) / std::max(1, plot.width());
    return Quarter{static_cast<std::uint8_t>(std::clamp(number, 0, quarters - 1))};
}

ChartPlan plan_chart(const PlantDay &day, QSize size, const QFontMetrics &metrics, Tongue tongue) {
    const Reach reach = reach_of(day);
    const int line = tall(metrics, 1.3);
    ChartPlan plan;
    plan.legend = legend_of(marks_of_day(day), size.width(), metrics, tongue);
    plan.least_bar = std::max(1, tall(metrics, 0.1));
    int top = plan.legend.empty() ? tall(metrics, 0.4) : plan.legend.back().place.bottom() + 1;
    if (reach.needs_two_scales()) {
        const QRect room(wide(metrics, 1), top, size.width() - wide(metrics, 2), 4 * line);
        const QRect note = metrics.boundingRect(room, Qt::TextWordWrap, words(Word::chart_scales, tongue));
        plan.note = QRect(room.topLeft(), QSize(room.width(), note.height()));
        top = plan.note.bottom() + 1;
    }
    const int hours_top = size.height() - tall(metrics, 1.9);
    const int plot_top = top + tall(metrics, 0.3) + line;
    plan.plot = QRect(0, plot_top, size.width(), std::max(1, hours_top - plot_top));
    divide(plan, reach, metrics);

    const int left = axis_width(plan, metrics, tongue) + wide(metrics, 2.5);
    plan.plot.setLeft(left);
    plan.plot.setRight(std::max(left + 1, size.width() - wide(metrics, 2)));
    plan.axis = QRect(0, plot_top - line, left - wide(metrics, 1), hours_top - plot_top + line);
    plan.marks = QRect(left, plot_top - line, plan.plot.width(), line);
    plan.hours = QRect(left, hours_top, plan.plot.width(), size.height() - hours_top);
    return plan;
}

} // namespace client
