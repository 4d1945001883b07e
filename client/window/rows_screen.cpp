#include "rows_screen.h"

#include "filling_table.h"
#include "laid_text.h"
#include "look.h"
#include "net_first.h"
#include "rows_model.h"

#include <QComboBox>
#include <QEvent>
#include <QHBoxLayout>
#include <QLabel>
#include <QScrollBar>
#include <QTimer>
#include <QVBoxLayout>

#include <algorithm>
#include <exception>

namespace client {

namespace {

// Names leave most of the room to the figures.
constexpr double most_name_part = 0.4;

// All columns are as wide as the longest figure of any of them: it is known without asking for every cell.
class RowsTable : public FillingTable {
  public:
    RowsTable(RowsModel *model, QWidget *parent) : FillingTable(parent), rows_(model) {
        setModel(model);
        make_even();
        show_row_heads(most_name_part);
        setAlternatingRowColors(true);
        setSelectionMode(QAbstractItemView::SingleSelection);
    }

  protected:
    int content_width(int column, TextWidths &widths) const override {
        int widest = 0;
        for (const QString &longest : rows_->longest(column)) {
            // The sums are bold, one of them in every column.
            widest = std::max(widest, widths.of(longest, rows_->has_sums()));
        }
        return widest;
    }

  private:
    RowsModel *rows_;
};

} // namespace

RowsScreen::RowsScreen(QWidget *parent) : QWidget(parent) {
    make_page();
    connect(figures_, &QComboBox::currentIndexChanged, this, [this] {
        model_->set_figure(figure());
        fit();
    });
    connect(table_, &QTableView::activated, this, [this](const QModelIndex &index) {
        const auto id = model_->id_at(index.row());
        const auto quarter = model_->quarter_of(index.column());
        if (id && quarter) {
            emit cell_chosen(*id, *quarter);
        }
    });
}

void RowsScreen::make_page() {
    label_ = plain_label(this);
    label_->setWordWrap(false);
    figures_ = new QComboBox(this);
    figures_->setSizeAdjustPolicy(QComboBox::AdjustToContents);
    label_->setBuddy(figures_);
    for (std::size_t i = 0; i < net_first().size(); ++i) {
        figures_->addItem({});
    }
    empty_ = plain_label(this);
    model_ = new RowsModel(this);
    table_ = new RowsTable(model_, this);

    auto *above = new QHBoxLayout;
    above->addWidget(label_);
    above->addWidget(figures_);
    above->addStretch(1);
    auto *column = new QVBoxLayout(this);
    column->addLayout(above);
    column->addWidget(empty_);
    column->addWidget(table_, 1);
}

Figure RowsScreen::figure() const {
    return net_first()[static_cast<std::size_t>(std::max(0, figures_->currentIndex()))];
}

void RowsScreen::name_figures(Tongue tongue) {
    for (std::size_t i = 0; i < net_first().size(); ++i) {
        figures_->setItemText(static_cast<int>(i), words(long_name(field(net_first()[i])), tongue));
    }
    label_->setText(words(Word::rows_figure, tongue));
    figures_->setAccessibleName(words(Word::rows_figure, tongue));
    table_->setAccessibleName(words(Word::rows_table, tongue));
}

void RowsScreen::forget(Tongue tongue) {
    forget_tool_tips();
    leave_place();
    model_->clear(tongue);
    empty_->clear();
    name_figures(tongue);
}

void RowsScreen::show_reading(const Shown &shown) {
    Word instead = Word::rows_none;
    try {
        if (shown.day) {
            model_->show_rows(shown, figure());
        }
    } catch (const std::exception &) {
        forget(shown.tongue);
        instead = Word::screen_fault;
    }
    empty_->setText(model_->rowCount() == 0 ? words(instead, shown.tongue) : QString());
    empty_->setVisible(model_->rowCount() == 0);
    table_->setVisible(model_->rowCount() > 0);
    fit();
    take_place(shown);
}

// A refresh leaves the table as it was: where it was scrolled to, and at which cell somebody was.
void RowsScreen::leave_place() {
    if (model_->rowCount() == 0) {
        return;
    }
    const QModelIndex at = table_->currentIndex();
    place_ = Place{.row = model_->id_at(at.row()),
                   .column = at.column(),
                   .across = table_->horizontalScrollBar()->value(),
                   .down = table_->verticalScrollBar()->value()};
}

void RowsScreen::take_place(const Shown &shown) {
    const std::optional<Place> left = std::exchange(place_, std::nullopt);
    const bool is_same_day = std::exchange(day_, shown.day) == shown.day;
    if (!left || !is_same_day || model_->rowCount() == 0) {
        chosen_.reset();
        show_choice(shown);
        // It may not have its size yet.
        QTimer::singleShot(0, table_, [this] { table_->scrollTo(table_->currentIndex()); });
        return;
    }
    const auto row = left->row ? model_->row_of(*left->row) : model_->sums_row();
    // Qt would bring the cell into sight, at once or when the table is next shown.
    table_->setAutoScroll(false);
    table_->setCurrentIndex(row && left->column >= 0 ? model_->index(*row, left->column) : QModelIndex());
    table_->setAutoScroll(true);
    table_->doItemsLayout();
    table_->horizontalScrollBar()->setValue(left->across);
    table_->verticalScrollBar()->setValue(left->down);
    show_choice(shown);
}

// A figure that has no sum has no place for it.
void RowsScreen::fit() {
    const bool has_sums = model_->has_sums();
    if (model_->rowCount() > 0) {
        table_->setRowHidden(model_->sums_row(), true);
    }
    table_->setColumnHidden(RowsModel::sums_column, true);
    table_->pin(has_sums && model_->rowCount() > 0 ? std::optional(model_->sums_row()) : std::nullopt,
                has_sums ? std::optional(RowsModel::sums_column) : std::nullopt);
    table_->fit();
    set_page_margins(*this);
}

// Only what is newly chosen is marked and brought into sight: somebody may be at another cell.
void RowsScreen::show_choice(const Shown &shown) {
    const auto row = shown.plant ? model_->row_of(*shown.plant) : std::nullopt;
    if (!row) {
        chosen_.reset();
        table_->setCurrentIndex({});
        return;
    }
    const std::pair now(*shown.plant, shown.quarter);
    if (std::exchange(chosen_, now) == now) {
        return;
    }
    const QModelIndex index = model_->index(*row, shown.quarter ? shown.quarter->number : 0);
    table_->setCurrentIndex(index);
    table_->scrollTo(index);
}

void RowsScreen::take_keys() {
    table_->setFocus(Qt::ShortcutFocusReason);
}

void RowsScreen::changeEvent(QEvent *event) {
    QWidget::changeEvent(event);
    if (event->type() == QEvent::FontChange) {
        fit();
    }
}

} // namespace client
