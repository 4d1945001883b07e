// The day of a plant: what it comes to, the chart of its 96 quarters, and the table of all their figures.
#pragma once

#include "screen.h"

#include <utility>

class QBoxLayout;
class QLabel;
class QModelIndex;
class QPushButton;
class QSplitter;

namespace client {

class Chart;
class DayModel;
class FillingTable;
struct PlantDay;

class DayScreen : public QWidget, public Screen {
    Q_OBJECT

  public:
    explicit DayScreen(QWidget *parent = nullptr);

    QWidget &as_widget() override { return *this; }
    std::optional<Word> title() const override { return Word::tab_day; }
    QKeySequence keys() const override { return Qt::CTRL | Qt::Key_1; }
    // The keys go to the chart.
    void take_keys() override;
    std::optional<Subject> exports() const override { return Subject::day; }

    QSize sizeHint() const override;

  signals:
    void quarter_chosen(client::Quarter quarter);
    // Enter or a double click: somebody wants to read why.
    void quarter_opened();

  protected:
    void changeEvent(QEvent *event) override;
    void resizeEvent(QResizeEvent *event) override;

  private:
    void forget(Tongue tongue) override;
    // Shows the day and the plant that are chosen; without one of them it says what is missing.
    void show_reading(const Shown &shown) override;
    // Marks another quarter of the day that is shown.
    void show_choice(const Shown &shown) override { mark(shown.quarter); }

    void make_page();
    void make_answer(QBoxLayout &column);
    void make_table(QBoxLayout &column);
    void connect_all();
    void set_fonts();
    void place_button();
    void show_plant(const Shown &shown);
    void show_emptiness(const Shown &shown);
    void show_answer(const PlantDay &day, Tongue tongue);
    void show_standing(const Reading &reading, Day day, Tongue tongue, std::size_t absent);
    void show_outdated(const PlantDay &day, Tongue tongue);
    void show_dearest(const PlantDay &day, Tongue tongue);
    void mark(std::optional<Quarter> quarter);
    void pick(Quarter quarter);
    void pick_row(const QModelIndex &current);
    void mark_row(std::optional<Quarter> quarter);

    QWidget *page_ = nullptr;
    QLabel *answer_ = nullptr;
    QLabel *parts_ = nullptr;
    QLabel *standing_ = nullptr;
    QLabel *booking_ = nullptr;
    QLabel *outdated_ = nullptr;
    QPushButton *dearest_ = nullptr;
    QBoxLayout *below_answer_ = nullptr;
    QSplitter *split_ = nullptr;
    Chart *chart_ = nullptr;
    FillingTable *table_ = nullptr;
    DayModel *model_ = nullptr;
    std::optional<Quarter> dearest_quarter_;
    std::optional<Quarter> chosen_;
    std::optional<std::pair<Day, RowId>> table_of_; // whose table was shown last,
    int scrolled_to_ = 0;                           // and its place
    bool is_marking_ = false;                       // the table follows the chart: nobody has chosen anything in it
};

} // namespace client
