#include "quarter_pane.h"

#include "explain.h"
#include "fitted_table.h"
#include "look.h"
#include "sha256.h"
#include "view.h"

#include <QApplication>
#include <QClipboard>
#include <QEvent>
#include <QLabel>
#include <QPainter>
#include <QPushButton>
#include <QScrollBar>
#include <QStringList>
#include <QVBoxLayout>

#include <algorithm>
#include <exception>
#include <utility>

namespace client {

namespace {

const QKeySequence copy_keys(Qt::CTRL | Qt::SHIFT | Qt::Key_C);

Cell figure(const std::string &value) {
    return {.text = text(value), .is_figure = true};
}

QStringList heads(Tongue tongue, std::initializer_list<Word> all) {
    QStringList names;
    for (const Word word : all) {
        names.append(words(word, tongue));
    }
    return names;
}

Said with_unit(Word name, Word unit) {
    return {Word::unit_of, {Said(name), Said(unit)}};
}

TextRow named(const Said &name, const std::string &value, Tongue tongue) {
    return {.cells = {{.text = words(name, tongue)}, figure(value)}};
}

// One figure before a correction, now, and what it went up or down by.
TextRow compared(const Said &name, const std::string &before, const std::string &now, const std::string &change,
                 Tongue tongue) {
    const bool is_other = before != now;
    Cell was = figure(before);
    was.is_void = is_other;
    Cell is = figure(now);
    is.is_bold = true;
    return {.cells = {{.text = words(name, tongue)}, was, is, figure(change)}};
}

std::optional<Row> row_among(const std::vector<Row> &rows, RowId id) {
    const auto found = std::find_if(rows.begin(), rows.end(), [id](const Row &row) { return row.id == id; });
    return found == rows.end() ? std::nullopt : std::optional(*found);
}

} // namespace

// The page.

QuarterPane::QuarterPane(QWidget *parent) : QScrollArea(parent) {
    setWidgetResizable(true);
    setFocusPolicy(Qt::StrongFocus);
    setHorizontalScrollBarPolicy(Qt::ScrollBarAlwaysOff);
    // Always there: the tables need not be laid out twice to find out whether it is.
    setVerticalScrollBarPolicy(Qt::ScrollBarAlwaysOn);
    make_page();
    set_fonts();
    connect(copy_, &QPushButton::clicked, this, &QuarterPane::copy);
}

void QuarterPane::make_page() {
    page_ = new QWidget(this);
    page_->setBackgroundRole(QPalette::Base);
    page_->setAutoFillBackground(true);
    auto *column = new QVBoxLayout(page_);
    const auto add_label = [&] {
        QLabel *label = plain_label(page_);
        column->addWidget(label);
        return label;
    };
    headline_ = add_label();
    headline_->setTextInteractionFlags(Qt::TextSelectableByMouse | Qt::TextSelectableByKeyboard);
    averaged_ = add_label();
    hindrance_ = add_label();
    reservation_ = add_label();
    reasons_heading_ = add_label();
    reasons_ = add_label();
    comparison_ = make_section(0);
    steps_ = make_section(1);
    disagreement_ = add_label();
    copy_ = new QPushButton(page_);
    copy_->setSizePolicy(QSizePolicy::Maximum, QSizePolicy::Fixed);
    column->addWidget(copy_);
    line_ = make_section(0);
    head_ = make_section(0);
    files_ = make_section(2);
    column->addStretch(1);
    setWidget(page_);
}

QuarterPane::Section QuarterPane::make_section(int wrapping_column) {
    Section section{plain_label(page_), new FittedTable(wrapping_column, page_)};
    page_->layout()->addWidget(section.heading);
    page_->layout()->addWidget(section.table);
    connect(section.table, &FittedTable::entered_cell, this, [this, table = section.table](QRect place) {
        const QPoint middle = table->mapTo(page_, place.center());
        ensureVisible(middle.x(), middle.y(), 0, place.height());
    });
    return section;
}

void QuarterPane::set_fonts() {
    headline_->setFont(scaled(font(), 1.35, QFont::DemiBold));
    reservation_->setFont(scaled(font(), 1, QFont::DemiBold));
    for (QLabel *heading :
         {reasons_heading_, comparison_.heading, steps_.heading, line_.heading, head_.heading, files_.heading}) {
        heading->setFont(scaled(font(), 1.1, QFont::DemiBold));
        heading->setContentsMargins(0, lines(*this, 0.9), 0, 0);
    }
    // Room for the frame of what has the keys.
    const int thick = 2 * thin(fontMetrics());
    setViewportMargins(thick, thick, thick, thick);
    page_->layout()->setSpacing(lines(*this, 0.4));
    page_->layout()->setContentsMargins(letters(*this, 2), lines(*this, 0.9), letters(*this, 2), lines(*this, 1));
}

void QuarterPane::changeEvent(QEvent *event) {
    QScrollArea::changeEvent(event);
    if (event->type() == QEvent::FontChange) {
        set_fonts();
    }
}

bool QuarterPane::event(QEvent *event) {
    const bool is_done = QScrollArea::event(event);
    if (event->type() == QEvent::Paint && hasFocus()) {
        QPainter painter(this);
        const int thick = 2 * thin(fontMetrics());
        paint_focus(painter, viewport()->geometry().adjusted(-thick, -thick, thick, thick), palette());
    }
    return is_done;
}

QSize QuarterPane::sizeHint() const {
    return {letters(*this, 66), lines(*this, 40)};
}

QSize QuarterPane::minimumSizeHint() const {
    return {letters(*this, 26), lines(*this, 10)};
}

void QuarterPane::name(Section &section, Word word, Tongue tongue) {
    section.heading->setText(words(word, tongue));
    section.table->setAccessibleName(words(word, tongue));
}

void QuarterPane::forget(Tongue tongue) {
    for (QLabel *label : {headline_, averaged_, hindrance_, reservation_, reasons_heading_, reasons_, disagreement_}) {
        label->clear();
    }
    for (Section *section : {&comparison_, &steps_, &line_, &head_, &files_}) {
        section->table->clear();
    }
    text_.clear();
    setAccessibleName(words(Word::pane, tongue));
    setAccessibleDescription({});
    page_->setAccessibleName(words(Word::pane, tongue));
    name(comparison_, Word::quarter_compared, tongue);
    name(steps_, Word::why_pays, tongue);
    name(line_, Word::quarter_line, tongue);
    name(head_, Word::quarter_head, tongue);
    name(files_, Word::quarter_files, tongue);
    const std::string keys = copy_keys.toString(QKeySequence::NativeText).toStdString();
    copy_->setText(words(Word::quarter_copy, tongue));
    copy_->setShortcut(copy_keys);
    explain_button(*copy_, words({Word::quarter_copy_what, {keys}}, tongue));
    copy_->setEnabled(false);
}

// Only what says something is seen.
void QuarterPane::show_what_is_there() {
    reasons_heading_->setVisible(!reasons_->text().isEmpty());
    for (QLabel *label : {headline_, averaged_, hindrance_, reservation_, reasons_, disagreement_}) {
        label->setVisible(!label->text().isEmpty());
    }
    for (const Section &section : {comparison_, steps_, line_, head_, files_}) {
        const bool has_rows = section.table->model()->rowCount() > 0;
        section.heading->setVisible(has_rows && section.table != comparison_.table);
        section.table->setVisible(has_rows);
    }
    // The question stands above the sentence that says why there is no answer, too.
    steps_.heading->setVisible(steps_.heading->isVisibleTo(page_) || disagreement_->isVisibleTo(page_));
    copy_->setVisible(!text_.isEmpty());
    copy_->setEnabled(!text_.isEmpty());
    setAccessibleDescription(headline_->text());
}

void QuarterPane::show_reading(const Shown &shown) {
    try {
        if (shown.day && shown.plant && shown.quarter) {
            const Slot slot{*shown.day, *shown.quarter};
            const At at{*shown.reading, shown.reading->at(slot), slot, *shown.plant, shown.tongue};
            show_statement(at);
            show_reservations(at);
            show_files(at);
        } else {
            hindrance_->setText(words(Word::quarter_choose, shown.tongue));
        }
    } catch (const std::exception &) {
        forget(shown.tongue);
        hindrance_->setText(words(Word::screen_fault, shown.tongue));
    }
    show_what_is_there();
    // A refresh leaves the page where it was read; another quarter or row begins at its top.
    const Of now{shown.day, shown.plant, shown.quarter};
    if (std::exchange(of_, now) != now) {
        verticalScrollBar()->setValue(0);
    }
}

// What the statement says of the row.

void QuarterPane::show_statement(const At &at) {
    const Said name = plant_name(at.reading, at.id);
    if (const auto why = hindrance(at.reading, at.read)) {
        headline_->setText(words({Word::quarter_none, {name, text(at.slot)}}, at.tongue));
        hindrance_->setText(words(*why, at.tongue));
        return;
    }
    if (at.read.statement->is_averaged()) {
        averaged_->setText(words(Word::quarter_averaged, at.tongue));
    }
    const auto line = at.read.statement->of(at.id);
    if (!line) {
        headline_->setText(words({Word::absent, {std::to_string(at.id.number)}}, at.tongue));
        show_head(at);
        return;
    }
    headline_->setText(words(answer_of(*line, at.slot, name), at.tongue));
    const std::vector<Row> rows =
        counting_rows(at.reading.interval(at.read), at.reading.correction(at.read), *at.read.statement);
    if (at.read.before) {
        show_correction(at, rows);
    }
    show_steps(at, rows);
    if (const auto row = row_among(rows, at.id)) {
        show_line(at, *line, *row);
    }
    show_head(at);
}

// What keeps the figure from being final, and statements of another time for this quarter.
void QuarterPane::show_reservations(const At &at) {
    QStringList sentences;
    for (const auto &said : {reservation(at.reading, at.read), outdated(at.reading, at.slot, at.id)}) {
        if (said) {
            sentences.append(words(*said, at.tongue));
        }
    }
    reservation_->setText(sentences.join(QLatin1Char('\n')));
    // What is copied leaves the window, and takes its reservations along.
    if (!text_.isEmpty() && !sentences.isEmpty()) {
        text_ += QLatin1Char('\n') + reservation_->text() + QLatin1Char('\n');
    }
}

void QuarterPane::show_correction(const At &at, const std::vector<Row> &rows) {
    const std::vector<Row> rows_before = counting_rows(at.reading.interval(at.read), {}, *at.read.before);
    QStringList sentences;
    for (const Said &reason :
         reasons({*at.read.before, rows_before}, {*at.read.statement, rows}, at.id, names_of(at.reading))) {
        sentences.append(words(reason, at.tongue));
    }
    reasons_heading_->setText(words(Word::quarter_changed, at.tongue));
    reasons_->setText(sentences.join(QLatin1Char('\n')));
    const auto row_before = row_among(rows_before, at.id);
    const auto row_now = row_among(rows, at.id);
    if (row_before && row_now) {
        show_comparison(at, *row_before, *row_now);
    }
}

void QuarterPane::show_comparison(const At &at, const Row &row_before, const Row &row_now) {
    const auto before = at.read.before->of(at.id);
    const auto now = at.read.statement->of(at.id);
    if (!before || !now) {
        return;
    }
    std::vector<TextRow> rows;
    rows.push_back(compared(with_unit(Word::figure_metered, Word::unit_kwh), text(row_before.metered),
                            text(row_now.metered), change(row_now.metered - row_before.metered), at.tongue));
    for (const Field &each : fields()) {
        const std::int64_t was = each.of(*before);
        const std::int64_t is = each.of(*now);
        if (was != 0 || is != 0 || each.figure == Figure::net) {
            rows.push_back(
                compared(long_name(each), text_of(each, was), text_of(each, is), change_of(each, was, is), at.tongue));
        }
    }
    rows.back().is_result = true;
    comparison_.table->fill(
        heads(at.tongue, {Word::quarter_figure, Word::quarter_before, Word::quarter_now, Word::quarter_change}),
        std::move(rows));
}

// The steps as a bill; none where they do not come to the statement's fen.
void QuarterPane::show_steps(const At &at, const std::vector<Row> &rows) {
    const Rules rules = rules_of(at.reading.interval(at.read));
    const auto explained = explain(*at.read.statement, rows, rules, at.id, names_of(at.reading));
    if (const auto *disagreement = std::get_if<Disagreement>(&explained)) {
        if (const auto line = at.read.statement->of(at.id)) {
            name(steps_, question_of(*line), at.tongue);
        }
        disagreement_->setText(words({Word::disagrees, {disagreement->check}}, at.tongue));
        return;
    }
    const Explanation &explanation = std::get<Explanation>(explained);
    std::vector<TextRow> bill;
    for (const Step &step : explanation.steps) {
        const std::string place = text(static_cast<std::int64_t>(bill.size() + 1));
        bill.push_back(
            {.cells = {figure(place), {.text = words(step.words, at.tongue)}, figure(step.yuan.value_or(""))},
             .is_result = step.is_result});
    }
    name(steps_, explanation.question, at.tongue);
    steps_.table->fill(heads(at.tongue, {Word::quarter_step, Word::quarter_because, Word::quarter_yuan}),
                       std::move(bill));
    text_ = text(client::as_text(explanation, at.tongue));
}

void QuarterPane::show_line(const At &at, const Line &line, const Row &row) {
    std::vector<TextRow> rows;
    rows.push_back(named(with_unit(Word::figure_metered, Word::unit_kwh), text(row.metered), at.tongue));
    for (const Field &each : fields()) {
        const std::int64_t count = each.of(line);
        if (count != 0 || each.figure == Figure::net) {
            rows.push_back(named(long_name(each), text_of(each, count), at.tongue));
        }
    }
    rows.back().is_result = true;
    line_.table->fill(heads(at.tongue, {Word::quarter_figure, Word::quarter_value}), std::move(rows));
}

void QuarterPane::show_head(const At &at) {
    const Statement &statement = *at.read.statement;
    const Head head = head_of(at.reading.interval(at.read));
    const Terms terms = terms_of(statement);
    const auto number = [](std::int64_t count) { return text(count); };
    std::vector<TextRow> rows;
    const auto add = [&](const Said &name, const std::string &value) { rows.push_back(named(name, value, at.tongue)); };
    const auto add_limits = [&](Word name, Li lowest, Li highest) {
        add(with_unit(name, Word::unit_price), Said(Word::head_limits, {text(lowest), text(highest)}).in(at.tongue));
    };
    add(with_unit(Word::head_tariff, Word::unit_price), text(head.tariff));
    add(with_unit(Word::head_need, Word::unit_kwh), text(head.need));
    add(Word::head_terms, Said(head.terms ? Word::head_terms_stated : Word::head_terms_issued).in(at.tongue));
    add(Word::head_baseline, number(terms.baseline));
    add(Word::head_averaged,
        say(statement.is_averaged() ? Word::head_averaged_yes : Word::head_averaged_no, at.tongue));
    add_limits(Word::head_limits_1, terms.limits[0], terms.limits[1]);
    add_limits(Word::head_limits_2, terms.limits[2], terms.limits[3]);
    add(with_unit(Word::head_price_1, Word::unit_price), text(statement.prices()[0]));
    add(with_unit(Word::head_price_2, Word::unit_price), text(statement.prices()[1]));
    add(with_unit(Word::head_total, Word::unit_yuan), text(statement.total()));
    add(with_unit(Word::head_shortfall, Word::unit_yuan), text(statement.shortfall()));
    add(Word::head_rounds, number(statement.rounds()));
    add(with_unit(Word::head_uncovered, Word::unit_kwh), text(statement.uncovered()));
    add(Word::head_rows, number(static_cast<std::int64_t>(statement.rows())));
    add(Word::head_visits, number(statement.visits()));
    head_.table->fill(heads(at.tongue, {Word::quarter_figure, Word::quarter_value}), std::move(rows));
}

void QuarterPane::show_files(const At &at) {
    std::vector<TextRow> rows;
    const auto add = [&](std::size_t place) {
        const File &file = at.reading.files.at(place);
        const QString hash = file.whole ? text(sha256(file.bytes)) : words(Word::quarter_not_whole, at.tongue);
        rows.push_back(
            {.cells = {{.text = words(name_of(file), at.tongue)}, {.text = text(file.name)}, {.text = hash}}});
    };
    std::for_each(at.read.intervals.begin(), at.read.intervals.end(), add);
    std::for_each(at.read.corrections.begin(), at.read.corrections.end(), add);
    std::for_each(at.read.named.begin(), at.read.named.end(), add);
    name(files_, at.read.statement ? Word::quarter_files : Word::quarter_files_here, at.tongue);
    files_.table->fill(heads(at.tongue, {Word::quarter_form, Word::quarter_file, Word::quarter_hash}), std::move(rows));
}

void QuarterPane::copy() {
    if (!text_.isEmpty()) {
        QApplication::clipboard()->setText(text_);
    }
}

} // namespace client
