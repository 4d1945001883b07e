// All rows of a day: a line for each row, a column for each quarter; one figure of each, which is chosen.
#pragma once

#include "screen.h"

#include <utility>

class QComboBox;
class QLabel;

namespace client {

class FillingTable;
class RowsModel;
enum class Figure;

class RowsScreen : public QWidget, public Screen {
    Q_OBJECT

  public:
    explicit RowsScreen(QWidget *parent = nullptr);

    QWidget &as_widget() override { return *this; }
    std::optional<Word> title() const override { return Word::tab_rows; }
    QKeySequence keys() const override { return Qt::CTRL | Qt::Key_3; }
    void take_keys() override;
    std::optional<Subject> exports() const override { return Subject::rows; }

  signals:
    // A cell was opened: that row and that quarter.
    void cell_chosen(client::RowId id, client::Quarter quarter);

  protected:
    void changeEvent(QEvent *event) override;

  private:
    void forget(Tongue tongue) override;
    void show_reading(const Shown &shown) override;
    // Marks the row and the quarter that are chosen.
    void show_choice(const Shown &shown) override;

    void make_page();
    void name_figures(Tongue tongue);
    Figure figure() const;
    void fit();
    void leave_place();
    void take_place(const Shown &shown);

    QLabel *label_ = nullptr;
    QComboBox *figures_ = nullptr;
    QLabel *empty_ = nullptr;
    FillingTable *table_ = nullptr;
    RowsModel *model_ = nullptr;

    // Where somebody was in a day's table: its cell, and how far it was scrolled. No figure is kept.
    struct Place {
        std::optional<RowId> row; // none for the sums
        int column = 0;
        int across = 0, down = 0;
    };
    std::optional<Place> place_;                                     // left by the reading before
    std::optional<Day> day_;                                         // whose table was shown last,
    std::optional<std::pair<RowId, std::optional<Quarter>>> chosen_; // and what was marked in it
};

} // namespace client
