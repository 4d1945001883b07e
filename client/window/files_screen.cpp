#include "files_screen.h"

#include "files_model.h"
#include "filling_table.h"
#include "look.h"

#include <QEvent>
#include <QHeaderView>
#include <QLabel>
#include <QVBoxLayout>

#include <algorithm>
#include <exception>

namespace client {

// The files at fault have rows as tall as their sentences; thousands of others have one line each.
class FilesTable : public FillingTable {
  public:
    FilesTable(FilesModel *model, QWidget *parent) : FillingTable(parent), files_(model) {
        setModel(model);
        setWordWrap(true);
        setSelectionBehavior(QAbstractItemView::SelectRows);
        setSelectionMode(QAbstractItemView::SingleSelection);
        set_most_letters(44);
        give_room_to({FilesModel::says, FilesModel::advice}, 20);
    }

  protected:
    void fit_rows() override {
        // More than this nobody reads through: they show one line, and all of it in the tool tip.
        constexpr int most_fitted = 100;
        FillingTable::fit_rows();
        for (int row = 0; row < std::min(files_->faulty(), most_fitted); ++row) {
            setRowHeight(row, std::max(sizeHintForRow(row), lines(*this, 1.5)));
        }
    }

  private:
    FilesModel *files_;
};

namespace {

std::vector<Said> kinds_of(const Reading &reading, std::size_t faulty) {
    const std::size_t intervals = reading.count(Form::interval);
    const std::size_t corrections = reading.count(Form::correction);
    const std::size_t others = reading.files.size() - intervals - corrections;
    std::vector<Said> kinds;
    kinds.push_back(faulty == 0 ? Said(Word::files_faulty_none)
                                : Said(Word::files_faulty, {text(static_cast<std::int64_t>(faulty))}));
    if (intervals > 0) {
        kinds.push_back(counted(intervals, Word::files_intervals_one, Word::files_intervals));
    }
    if (corrections > 0) {
        kinds.push_back(counted(corrections, Word::files_corrections_one, Word::files_corrections));
    }
    if (others > 0) {
        kinds.push_back(counted(others, Word::files_others_one, Word::files_others));
    }
    return kinds;
}

QString summary_of(const Reading &reading, std::size_t faulty, Tongue tongue) {
    if (reading.files.empty()) {
        return words(Word::files_none, tongue);
    }
    const Said all =
        counted(reading.files.size(), Word::files_sum_one, Word::files_sum, {beside(kinds_of(reading, faulty))});
    const auto open = reservation(reading);
    return open ? words(*open, tongue) + QLatin1Char('\n') + words(all, tongue) : words(all, tongue);
}

} // namespace

FilesScreen::FilesScreen(QWidget *parent) : QWidget(parent) {
    summary_ = plain_label(this);
    model_ = new FilesModel(this);
    table_ = new FilesTable(model_, this);
    auto *column = new QVBoxLayout(this);
    column->addWidget(summary_);
    column->addWidget(table_, 1);
    set_margins();
    connect(table_, &QTableView::activated, this, [this](const QModelIndex &index) {
        if (const auto slot = model_->slot_at(index.row())) {
            emit slot_chosen(*slot);
        }
    });
}

void FilesScreen::set_margins() {
    set_page_margins(*this);
    layout()->setSpacing(lines(*this, 0.5));
}

void FilesScreen::changeEvent(QEvent *event) {
    QWidget::changeEvent(event);
    if (event->type() == QEvent::FontChange) {
        set_margins();
    }
}

void FilesScreen::forget(Tongue tongue) {
    forget_tool_tips();
    summary_->clear();
    model_->clear(tongue);
    table_->setAccessibleName(words(Word::files_table, tongue));
}

void FilesScreen::show_reading(const Shown &shown) {
    try {
        model_->show_files(shown.reading, shown.tongue);
        table_->setColumnHidden(FilesModel::fault, model_->faulty() == 0);
        table_->fit();
        summary_->setText(summary_of(*shown.reading, static_cast<std::size_t>(model_->faulty()), shown.tongue));
    } catch (const std::exception &) {
        forget(shown.tongue);
        summary_->setText(words(Word::screen_fault, shown.tongue));
    }
}

void FilesScreen::take_keys() {
    table_->setFocus(Qt::ShortcutFocusReason);
}

} // namespace client
