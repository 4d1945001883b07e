#include "chart.h"

#include "chart_painting.h"
#include "chart_plan.h"
#include "look.h"
#include "shown.h"

#include <QAccessible>
#include <QAccessibleWidget>
#include <QHelpEvent>
#include <QKeyEvent>
#include <QMouseEvent>
#include <QPainter>
#include <QToolTip>

#include <algorithm>

namespace client {

namespace {

constexpr int quarters = static_cast<int>(quarters_of_day);
constexpr int quarters_of_hour = 4;

// What a screen reader is told.
class ChartReader : public QAccessibleWidget {
  public:
    explicit ChartReader(Chart *chart) : QAccessibleWidget(chart, QAccessible::Chart), chart_(chart) {}

    QString text(QAccessible::Text what) const override {
        const bool is_told = what == QAccessible::Value || what == QAccessible::Description;
        return is_told ? chart_->told() : QAccessibleWidget::text(what);
    }

  private:
    Chart *chart_;
};

QAccessibleInterface *reader_of(const QString &, QObject *object) {
    auto *chart = qobject_cast<Chart *>(object);
    return chart ? new ChartReader(chart) : nullptr;
}

// The amount of a quarter that the plant is in, and what it was before a correction.
Said amount_of(const PlantQuarter &here, const std::string &when) {
    const Fen net = here.line->net();
    const Said amount = net > Fen{}   ? Said(Word::chart_gets, {when, text(net)})
                        : net < Fen{} ? Said(Word::chart_pays, {when, text(-net)})
                                      : Said(Word::chart_zero, {when});
    if (!here.before) {
        return amount;
    }
    const Fen before = here.before->net();
    return before == net ? Said(Word::chart_was_same, {amount}) : Said(Word::chart_was, {amount, text(before)});
}

void install_reader() {
    static const bool is_installed = (QAccessible::installFactory(reader_of), true);
    Q_UNUSED(is_installed);
}

} // namespace

Chart::Chart(QWidget *parent) : QWidget(parent) {
    install_reader();
    setFocusPolicy(Qt::StrongFocus);
    setBackgroundRole(QPalette::Base);
    setAutoFillBackground(true);
    setSizePolicy(QSizePolicy::Expanding, QSizePolicy::Expanding);
}

void Chart::clear(Tongue tongue) {
    tongue_ = tongue;
    day_.reset();
    chosen_.reset();
    forget_tool_tips();
    setAccessibleName(words(Word::chart_name, tongue));
    tell_readers();
    update();
}

void Chart::show_day(const PlantDay &day, Tongue tongue) {
    clear(tongue);
    day_ = day;
    make_room();
}

// A legend of several lines takes nothing from the bars.
void Chart::make_room() {
    if (day_) {
        setMinimumHeight(std::max(minimumSizeHint().height(), plan().marks.top() + lines(*this, 8)));
    }
}

void Chart::resizeEvent(QResizeEvent *event) {
    QWidget::resizeEvent(event);
    make_room();
}

void Chart::changeEvent(QEvent *event) {
    QWidget::changeEvent(event);
    if (event->type() == QEvent::FontChange) {
        make_room();
    }
}

void Chart::choose(std::optional<Quarter> quarter) {
    if (chosen_ == quarter) {
        return;
    }
    chosen_ = quarter;
    tell_readers();
    update();
}

void Chart::pick(int number) {
    const Quarter quarter{static_cast<std::uint8_t>(std::clamp(number, 0, quarters - 1))};
    if (day_ && chosen_ != quarter) {
        choose(quarter);
        emit quarter_chosen(quarter);
    }
}

void Chart::tell_readers() {
    if (!QAccessible::isActive()) {
        return;
    }
    for (const QAccessible::Event what : {QAccessible::NameChanged, QAccessible::DescriptionChanged}) {
        QAccessibleEvent changed(this, what);
        QAccessible::updateAccessibility(&changed);
    }
}

QString Chart::told() const {
    return chosen_ ? told_of(*chosen_) : QString();
}

QString Chart::told_of(Quarter quarter) const {
    if (!day_) {
        return {};
    }
    const Said amount = said_of(quarter);
    const QuarterRead &read = *day_->quarters[quarter.number].read;
    const auto open = reservation(*day_->reading, read);
    // Where there is no amount, what stands in its place is a sentence already.
    const Word both = read.statement ? Word::chart_reserved : Word::listing_sentences;
    return words(open ? Said(both, {amount, *open}) : amount, tongue_);
}

Said Chart::said_of(Quarter quarter) const {
    const std::string when = span(quarter);
    const PlantQuarter &here = day_->quarters[quarter.number];
    if (const auto why = hindrance(*day_->reading, *here.read)) {
        return {Word::chart_hindered, {when, *why}};
    }
    const Said amount = here.line ? amount_of(here, when) : Said(Word::chart_not_in, {when});
    return here.read->statement->is_averaged() ? Said(Word::chart_by_average, {amount}) : amount;
}

QSize Chart::sizeHint() const {
    return minimumSizeHint();
}

QSize Chart::minimumSizeHint() const {
    return {letters(*this, 30), lines(*this, 10)};
}

ChartPlan Chart::plan() const {
    return plan_chart(*day_, size(), fontMetrics(), tongue_);
}

std::optional<Quarter> Chart::quarter_at(QPoint place) const {
    return day_ ? plan().quarter_at(place) : std::nullopt;
}

void Chart::paintEvent(QPaintEvent *) {
    QPainter painter(this);
    if (day_) {
        ChartPainting(painter, plan(), palette(), tongue_).paint(*day_, chosen_);
    }
    if (hasFocus()) {
        paint_focus(painter, rect(), palette());
    }
}

bool Chart::event(QEvent *event) {
    if (event->type() == QEvent::ToolTip) {
        const auto *help = static_cast<QHelpEvent *>(event);
        show_tip(help->pos(), help->globalPos());
        return true;
    }
    return QWidget::event(event);
}

void Chart::show_tip(QPoint place, QPoint on_screen) {
    if (const auto quarter = quarter_at(place)) {
        const QRect column = plan().column(quarter->number);
        QToolTip::showText(on_screen, tool_tip(told_of(*quarter)), this,
                           QRect(column.left(), 0, column.width(), height()));
    } else {
        QToolTip::hideText();
    }
}

void Chart::mousePressEvent(QMouseEvent *event) {
    const auto quarter = quarter_at(event->position().toPoint());
    if (event->button() == Qt::LeftButton && quarter) {
        pick(quarter->number);
    }
}

void Chart::mouseDoubleClickEvent(QMouseEvent *event) {
    const auto quarter = quarter_at(event->position().toPoint());
    if (event->button() == Qt::LeftButton && quarter) {
        pick(quarter->number);
        emit quarter_opened();
    }
}

void Chart::keyPressEvent(QKeyEvent *event) {
    const int last = quarters - 1;
    const auto step = [this](int by, int from_nothing) { pick(chosen_ ? chosen_->number + by : from_nothing); };
    switch (event->key()) {
    case Qt::Key_Left:
        return step(-1, last);
    case Qt::Key_Right:
        return step(1, 0);
    case Qt::Key_PageUp:
        return step(-quarters_of_hour, last);
    case Qt::Key_PageDown:
        return step(quarters_of_hour, 0);
    case Qt::Key_Home:
        return pick(0);
    case Qt::Key_End:
        return pick(last);
    case Qt::Key_Return:
    case Qt::Key_Enter:
        if (chosen_ && day_) {
            emit quarter_opened();
        }
        return;
    default:
        QWidget::keyPressEvent(event);
    }
}

} // namespace client
