#include "day_screen.h"

#include "chart.h"
#include "day_model.h"
#include "filling_table.h"
#include "look.h"
#include "view.h"

#include <QEvent>
#include <QHBoxLayout>
#include <QItemSelectionModel>
#include <QLabel>
#include <QPushButton>
#include <QScrollArea>
#include <QScrollBar>
#include <QSplitter>
#include <QTimer>
#include <QVBoxLayout>

#include <algorithm>
#include <array>
#include <exception>
#include <utility>

namespace client {

namespace {

const QKeySequence dearest_keys(Qt::CTRL | Qt::Key_D);

// So many statements of another time are told one by one.
constexpr std::size_t most_outdated = 3;

std::string number(std::size_t count) {
    return text(static_cast<std::int64_t>(count));
}

// What the net amount is made of, where it is more than one thing.
std::vector<Said> parts_of(const Sums &sums) {
    constexpr std::array<std::pair<Figure, Word>, 5> all{{{Figure::earned, Word::day_earned},
                                                          {Figure::cut, Word::day_cut},
                                                          {Figure::paid, Word::day_paid},
                                                          {Figure::penalty, Word::day_penalty},
                                                          {Figure::returned, Word::day_returned}}};
    std::vector<Said> parts;
    for (const auto &[figure, word] : all) {
        if (const Fen amount = sums.money(figure); amount != Fen{}) {
            parts.push_back({word, {text(amount)}});
        }
    }
    return parts;
}

// The day in one sentence. Where the day may not be booked yet it says so: the amount may not be the day's.
Said answer_for(const PlantDay &day, bool is_ready) {
    const Said name = plant_name(*day.reading, day.id);
    const bool is_anywhere = std::any_of(day.quarters.begin(), day.quarters.end(),
                                         [](const PlantQuarter &quarter) { return quarter.line.has_value(); });
    if (!is_anywhere) {
        return {Word::day_nowhere, {name, date(day.day)}};
    }
    const Fen net = day.sums.money(Figure::net);
    if (net == Fen{}) {
        return {is_ready ? Word::day_zero : Word::day_so_far_zero, {name, date(day.day)}};
    }
    const Word gets = is_ready ? Word::day_gets : Word::day_so_far_gets;
    const Word pays = is_ready ? Word::day_pays : Word::day_so_far_pays;
    return {net > Fen{} ? gets : pays, {name, text(net > Fen{} ? net : -net), date(day.day)}};
}

// Quarters that are settled without the plant.
std::size_t absent_from(const PlantDay &day) {
    return static_cast<std::size_t>(
        std::count_if(day.quarters.begin(), day.quarters.end(),
                      [](const PlantQuarter &quarter) { return quarter.read->statement && !quarter.line; }));
}

} // namespace

DayScreen::DayScreen(QWidget *parent) : QWidget(parent) {
    make_page();
    connect_all();
    set_fonts();
}

void DayScreen::make_page() {
    // With large letters the page is taller than the window: then it scrolls.
    auto *scroll = new QScrollArea(this);
    scroll->setFrameShape(QFrame::NoFrame);
    scroll->setWidgetResizable(true);
    scroll->setFocusPolicy(Qt::NoFocus);
    auto *around = new QVBoxLayout(this);
    around->setContentsMargins(0, 0, 0, 0);
    around->addWidget(scroll);

    page_ = new QWidget(scroll);
    page_->setBackgroundRole(QPalette::Base);
    page_->setAutoFillBackground(true);
    auto *column = new QVBoxLayout(page_);
    make_answer(*column);
    make_table(*column);
    scroll->setWidget(page_);
}

void DayScreen::make_answer(QBoxLayout &column) {
    answer_ = plain_label(page_);
    answer_->setTextInteractionFlags(Qt::TextSelectableByMouse | Qt::TextSelectableByKeyboard);
    answer_->setAlignment(Qt::AlignTop | Qt::AlignLeft);
    parts_ = plain_label(page_);
    standing_ = plain_label(page_);
    booking_ = plain_label(page_);
    outdated_ = plain_label(page_);
    dearest_ = new QPushButton(page_);
    dearest_->setSizePolicy(QSizePolicy::Maximum, QSizePolicy::Maximum);

    below_answer_ = new QBoxLayout(QBoxLayout::LeftToRight);
    below_answer_->addWidget(standing_, 1);
    below_answer_->addWidget(dearest_, 0, Qt::AlignBottom | Qt::AlignLeft);
    column.addWidget(answer_);
    column.addWidget(parts_);
    column.addLayout(below_answer_);
    column.addWidget(booking_);
    column.addWidget(outdated_);
}

void DayScreen::make_table(QBoxLayout &column) {
    split_ = new QSplitter(Qt::Vertical, page_);
    chart_ = new Chart(split_);
    table_ = new FillingTable(split_);
    model_ = new DayModel(this);
    table_->setModel(model_);
    table_->show_row_heads();
    table_->setSelectionBehavior(QAbstractItemView::SelectRows);
    table_->setSelectionMode(QAbstractItemView::SingleSelection);
    table_->setVerticalScrollBarPolicy(Qt::ScrollBarAlwaysOn);
    table_->setAlternatingRowColors(true);
    table_->setFrameShape(QFrame::NoFrame);
    table_->give_room_to({DayModel::note_column()}, 28);
    table_->pin(DayModel::sums_row, DayModel::net_column());
    split_->setChildrenCollapsible(false);
    split_->setStretchFactor(0, 1);
    split_->setStretchFactor(1, 1);
    column.addWidget(split_, 1);
}

void DayScreen::connect_all() {
    connect(chart_, &Chart::quarter_chosen, this, &DayScreen::pick);
    connect(chart_, &Chart::quarter_opened, this, &DayScreen::quarter_opened);
    connect(dearest_, &QPushButton::clicked, this, [this] {
        if (dearest_quarter_) {
            pick(*dearest_quarter_);
        }
    });
    connect(table_->selectionModel(), &QItemSelectionModel::currentChanged, this, &DayScreen::pick_row);
    connect(table_, &QTableView::activated, this, [this](const QModelIndex &index) {
        if (index.row() != DayModel::sums_row) {
            emit quarter_opened();
        }
    });
}

void DayScreen::set_fonts() {
    answer_->setFont(scaled(font(), 1.6, QFont::DemiBold));
    booking_->setFont(scaled(font(), 1, QFont::DemiBold));
    outdated_->setFont(scaled(font(), 1, QFont::DemiBold));
    mute(*parts_);
    mute(*standing_);
    table_->setMinimumHeight(lines(*this, 9));
    auto *column = page_->layout();
    column->setSpacing(lines(*this, 0.5));
    below_answer_->setSpacing(lines(*this, 0.35));
    set_page_margins(*page_);
}

// The button stands beside the sentences where there is room for both.
void DayScreen::resizeEvent(QResizeEvent *event) {
    QWidget::resizeEvent(event);
    place_button();
}

void DayScreen::place_button() {
    const QString in_one_line = dearest_->text().remove(QLatin1Char('\n'));
    const int wide = dearest_->fontMetrics().horizontalAdvance(in_one_line) + letters(*this, 2);
    below_answer_->setDirection(width() > 5 * wide / 2 ? QBoxLayout::LeftToRight : QBoxLayout::TopToBottom);
    if (!dearest_quarter_) {
        return;
    }
    // Where letters are very large it has two lines, the span at the front of the second.
    QString label = in_one_line;
    if (width() < wide + letters(*this, 6)) {
        label.insert(std::max<qsizetype>(0, label.indexOf(text(span(*dearest_quarter_)))), QLatin1Char('\n'));
    }
    dearest_->setText(label);
    // A text brings its own keys, or none.
    dearest_->setShortcut(dearest_keys);
}

void DayScreen::changeEvent(QEvent *event) {
    QWidget::changeEvent(event);
    if (event->type() == QEvent::FontChange || event->type() == QEvent::PaletteChange) {
        set_fonts();
    }
}

void DayScreen::forget(Tongue tongue) {
    // Nothing is hidden here: what has the keys would lose them at every reading.
    for (QLabel *label : {answer_, parts_, standing_, booking_, outdated_}) {
        label->clear();
    }
    dearest_->setText({});
    dearest_->setToolTip({});
    dearest_->setAccessibleDescription({});
    dearest_quarter_.reset();
    chosen_.reset();
    chart_->clear(tongue);
    is_marking_ = true;
    if (model_->rowCount() > 0) {
        scrolled_to_ = table_->verticalScrollBar()->value();
    }
    model_->clear(tongue);
    is_marking_ = false;
    table_->setAccessibleName(words(Word::day_table, tongue));
    split_->setAccessibleName(words(Word::day_split, tongue));
}

void DayScreen::show_reading(const Shown &shown) {
    const bool has_day = shown.day && shown.plant;
    try {
        has_day ? show_plant(shown) : show_emptiness(shown);
    } catch (const std::exception &) {
        forget(shown.tongue);
        answer_->setText(words(Word::screen_fault, shown.tongue));
    }
    for (QLabel *label : {answer_, parts_, standing_, booking_, outdated_}) {
        label->setVisible(!label->text().isEmpty());
    }
    dearest_->setVisible(dearest_quarter_.has_value());
    place_button();
    split_->setVisible(has_day);
}

void DayScreen::show_emptiness(const Shown &shown) {
    const bool has_plants = shown.day && !plants_of(*shown.reading, *shown.day).empty();
    const Said empty = !shown.day   ? Said(Word::day_none)
                       : has_plants ? Said(Word::day_choose)
                                    : Said(Word::day_nobody, {date(*shown.day)});
    answer_->setText(words(empty, shown.tongue));
    if (shown.day) {
        show_standing(*shown.reading, *shown.day, shown.tongue, 0);
    }
}

void DayScreen::show_plant(const Shown &shown) {
    const PlantDay day = plant_day(shown.reading, *shown.day, *shown.plant);
    show_answer(day, shown.tongue);
    show_standing(*shown.reading, day.day, shown.tongue, absent_from(day));
    show_outdated(day, shown.tongue);
    show_dearest(day, shown.tongue);
    chart_->show_day(day, shown.tongue);
    is_marking_ = true;
    model_->show_day(day, shown.tongue);
    is_marking_ = false;
    for (int column = 0; column < model_->columnCount(); ++column) {
        // The time is the head of each row, which stays in sight.
        table_->setColumnHidden(column, column == DayModel::time_column() || model_->is_idle(column));
    }
    table_->fit();
    mark(shown.quarter);
    // A refresh leaves the table where it was scrolled to; another day or plant shows the chosen quarter.
    const bool is_other = std::exchange(table_of_, std::pair(day.day, day.id)) != std::pair(day.day, day.id);
    QTimer::singleShot(0, table_, [this, is_other, at = scrolled_to_] {
        if (is_other) {
            table_->scrollTo(table_->currentIndex(), QAbstractItemView::PositionAtCenter);
        } else {
            table_->verticalScrollBar()->setValue(at);
        }
    });
}

void DayScreen::show_answer(const PlantDay &day, Tongue tongue) {
    answer_->setText(words(answer_for(day, arrived(*day.reading, day.day).is_ready()), tongue));
    const std::vector<Said> parts = parts_of(day.sums);
    if (parts.size() > 1) {
        parts_->setText(words({Word::day_parts, {beside(parts)}}, tongue));
    }
}

void DayScreen::show_standing(const Reading &reading, Day day, Tongue tongue, std::size_t absent) {
    const Arrived all = arrived(reading, day);
    std::vector<Said> standing{{Word::day_settled, {number(all.settled), number(quarters_of_day)}}};
    if (all.corrected > 0) {
        standing.push_back({Word::day_corrected, {number(all.corrected)}});
    }
    if (absent > 0) {
        standing.push_back(counted(absent, Word::day_absent_one, Word::day_absent));
    }
    standing_->setText(words(beside(standing), tongue));
    booking_->setText(words(readiness(reading, day), tongue));
}

// Statements of another time, which somebody may have booked.
void DayScreen::show_outdated(const PlantDay &day, Tongue tongue) {
    const std::vector<Said> all = outdated(*day.reading, day.day, day.id);
    QStringList sentences;
    for (std::size_t at = 0; at < std::min(all.size(), most_outdated); ++at) {
        sentences.append(words(all[at], tongue));
    }
    if (all.size() > most_outdated) {
        sentences.append(words({Word::outdated_more, {number(all.size() - most_outdated)}}, tongue));
    }
    outdated_->setText(sentences.join(QLatin1Char('\n')));
}

void DayScreen::show_dearest(const PlantDay &day, Tongue tongue) {
    dearest_quarter_ = dearest(day);
    if (!dearest_quarter_) {
        return;
    }
    const Fen cost = -day.quarters[dearest_quarter_->number].line->net();
    const std::string keys = dearest_keys.toString(QKeySequence::NativeText).toStdString();
    dearest_->setText(words({Word::day_dearest, {span(*dearest_quarter_), text(cost)}}, tongue));
    explain_button(*dearest_, words({Word::day_dearest_what, {keys}}, tongue));
}

void DayScreen::mark(std::optional<Quarter> quarter) {
    chosen_ = quarter;
    chart_->choose(quarter);
    mark_row(quarter);
}

QSize DayScreen::sizeHint() const {
    return {letters(*this, 96), lines(*this, 40)};
}

void DayScreen::take_keys() {
    chart_->setFocus(Qt::ShortcutFocusReason);
}

void DayScreen::pick(Quarter quarter) {
    if (chosen_ == quarter) {
        return;
    }
    mark(quarter);
    emit quarter_chosen(quarter);
}

void DayScreen::pick_row(const QModelIndex &current) {
    if (!is_marking_ && current.isValid() && current.row() != DayModel::sums_row) {
        pick(Quarter{static_cast<std::uint8_t>(current.row())});
    }
}

void DayScreen::mark_row(std::optional<Quarter> quarter) {
    is_marking_ = true;
    if (!quarter || model_->rowCount() == 0) {
        table_->setCurrentIndex({});
        table_->clearSelection();
    } else if (table_->currentIndex().row() != quarter->number) {
        // Not the time's: a column that is hidden cannot be scrolled to.
        const int column = std::max(DayModel::time_column() + 1, table_->currentIndex().column());
        const QModelIndex index = model_->index(quarter->number, column);
        table_->setCurrentIndex(index);
        table_->scrollTo(index);
    }
    is_marking_ = false;
}

} // namespace client
