// A table that fills its place: every column is as wide as what it holds, and what room is left goes to the columns
// that take it. A row and a column can be pinned: they stand beside the heads, where nothing scrolls away. Tab leaves
// it, and Ctrl+C copies what is chosen as text.
#pragma once

#include "quiet_table.h"

#include <optional>
#include <set>
#include <vector>

class QAbstractButton;

namespace client {

class PlainHeader;
class TextWidths;

class FillingTable : public QuietTable {
    Q_OBJECT

  public:
    explicit FillingTable(QWidget *parent = nullptr);

    // Columns that share what room is left, and that may be narrower than what they hold, but not than so many letters.
    void give_room_to(std::set<int> columns, double least_letters);
    // All columns are equally wide, so that none is seen in part.
    void make_even() { is_even_ = true; }
    // The heads of rows are shown, and stay in sight. They take at most this part of the table's width.
    void show_row_heads(double most_part = 1);
    // No column of texts asks for more than so many letters; what is longer is cut short and stands in the tool tip.
    void set_most_letters(double letters) { most_letters_ = letters; }
    // A row right below the heads and a column right beside the heads of rows, which are always in sight. They are no
    // others than the model's: keys, pointer and screen readers find them as any cell. Where letters are so large that
    // no other column would be seen beside it, the column stands among the others. Counts from the next fit().
    void pin(std::optional<int> row, std::optional<int> column);
    // To be called once the model holds something else.
    void fit();

    QSize sizeHint() const override;
    QRect visualRect(const QModelIndex &index) const override;
    QModelIndex indexAt(const QPoint &at) const override;
    void scrollTo(const QModelIndex &index, ScrollHint hint = EnsureVisible) override;

  protected:
    bool eventFilter(QObject *watched, QEvent *event) override;
    void resizeEvent(QResizeEvent *event) override;
    void changeEvent(QEvent *event) override;
    void keyPressEvent(QKeyEvent *event) override;
    void currentChanged(const QModelIndex &current, const QModelIndex &previous) override;
    void selectionChanged(const QItemSelection &selected, const QItemSelection &deselected) override;
    QModelIndex moveCursor(CursorAction action, Qt::KeyboardModifiers modifiers) override;

    // The width of the widest text of a column.
    virtual int content_width(int column, TextWidths &widths) const;
    // Rows follow columns: called with the widths set.
    virtual void fit_rows();
    bool takes_room(int column) const { return roomy_.count(column) != 0; }

  private:
    int natural_width(int column, TextWidths &widths) const;
    void measure();
    void spread();
    void spread_heads();
    void spread_columns();
    void spread_evenly();
    void align_columns();
    void copy_chosen() const;

    int pinned_height() const;
    int pinned_width() const;
    int natural(std::optional<int> column) const;
    int widest_column() const;
    QModelIndex pinned_at(const QPoint &at) const;
    bool pass_on(QWidget &from, QEvent &event);
    void paint_pinned(QPainter &painter, const QModelIndex &index) const;
    void paint_pinned_row(QPainter &painter) const;
    void paint_pinned_column(QPainter &painter) const;
    void paint_corner() const;
    void update_heads();

    PlainHeader *heads_;
    PlainHeader *row_heads_;
    QAbstractButton *corner_;
    std::set<int> roomy_;
    double least_letters_ = 0;
    double most_letters_ = 60;
    double most_head_part_ = 1;
    bool is_even_ = false;
    std::vector<int> natural_; // widths of what the columns hold
    int natural_heads_ = 0;    // and of the heads of rows
    std::optional<int> pinned_row_;
    std::optional<int> wanted_column_, pinned_column_; // the column to be pinned, and whether there is room for it
    bool is_spreading_ = false;
};

} // namespace client
