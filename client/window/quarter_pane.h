// One quarter of a plant: the amount, what a correction changed and why, the steps to the last fen, the statement's
// head and the files it comes from.
#pragma once

#include "screen.h"

#include <QScrollArea>

#include <vector>

class QLabel;
class QPushButton;

namespace client {

class FittedTable;
struct Line;
struct QuarterRead;
struct Row;

class QuarterPane : public QScrollArea, public Screen {
    Q_OBJECT

  public:
    explicit QuarterPane(QWidget *parent = nullptr);

    QWidget &as_widget() override { return *this; }
    QKeySequence keys() const override { return Qt::CTRL | Qt::Key_2; }
    // The explanation as text, for the clipboard; empty where none is shown.
    QString as_text() const { return text_; }

    QSize sizeHint() const override;
    QSize minimumSizeHint() const override;

  protected:
    bool event(QEvent *event) override;
    void changeEvent(QEvent *event) override;

  private:
    // A heading and the table below it; both are seen only where the table has rows.
    struct Section {
        QLabel *heading;
        FittedTable *table;
    };
    // What is shown, once it is known that everything is there.
    struct At {
        const Reading &reading;
        const QuarterRead &read;
        Slot slot;
        RowId id;
        Tongue tongue;
    };

    // Whose quarter the page shows.
    struct Of {
        std::optional<Day> day;
        std::optional<RowId> plant;
        std::optional<Quarter> quarter;
        friend bool operator==(const Of &, const Of &) = default;
    };

    void forget(Tongue tongue) override;
    void show_reading(const Shown &shown) override;
    void show_choice(const Shown &shown) override { fill(shown); }

    void make_page();
    Section make_section(int wrapping_column);
    void set_fonts();
    void show_what_is_there();
    void name(Section &section, Word word, Tongue tongue);

    void show_statement(const At &at);
    void show_reservations(const At &at);
    void show_correction(const At &at, const std::vector<Row> &rows);
    void show_comparison(const At &at, const Row &row_before, const Row &row_now);
    void show_steps(const At &at, const std::vector<Row> &rows);
    void show_line(const At &at, const Line &line, const Row &row);
    void show_head(const At &at);
    void show_files(const At &at);
    void copy();

    QWidget *page_ = nullptr;
    QLabel *headline_ = nullptr;
    QLabel *averaged_ = nullptr; // says that the thermal average ruled, where it did
    QLabel *hindrance_ = nullptr;
    QLabel *reservation_ = nullptr;
    QLabel *reasons_heading_ = nullptr;
    QLabel *reasons_ = nullptr;
    Section comparison_{};
    Section steps_{};
    QLabel *disagreement_ = nullptr;
    QPushButton *copy_ = nullptr;
    Section line_{};
    Section head_{};
    Section files_{};
    QString text_;
    Of of_;
};

} // namespace client
