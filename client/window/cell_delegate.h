// How the cells of all tables are painted: as far from their edges as the heads are, plain text, the palette's colours.
// What stands at the right is a figure: it is never wrapped, and is painted whole or not at all.
#pragma once

#include <QStyledItemDelegate>

class QTableView;

namespace client {

class CellDelegate : public QStyledItemDelegate {
    Q_OBJECT

  public:
    // True for a cell that counts less than the others, or no longer.
    static constexpr int muted_role = Qt::UserRole;
    // True for a cell of a row with a line above it: a result.
    static constexpr int result_role = Qt::UserRole + 1;
    // True for a cell, or a head, where no figure can be: it is hatched.
    static constexpr int void_role = Qt::UserRole + 2;
    // True for a figure that is not final: a broken line is below it.
    static constexpr int open_role = Qt::UserRole + 3;

    explicit CellDelegate(QTableView *view);

    // A fine line stands between rows.
    void rule_rows() { is_ruled_ = true; }

    void paint(QPainter *painter, const QStyleOptionViewItem &option, const QModelIndex &index) const override;
    // As tall as the text wrapped in its column.
    QSize sizeHint(const QStyleOptionViewItem &option, const QModelIndex &index) const override;

  private:
    int side() const;
    int above() const;
    int fine() const;
    bool is_cut_by_edge(const QRect &place) const;
    QString shown_text(const QStyleOptionViewItem &option, const QModelIndex &index, int width) const;
    void paint_ground(QPainter &painter, const QStyleOptionViewItem &option, const QModelIndex &index) const;
    void paint_text(QPainter &painter, const QStyleOptionViewItem &option, const QModelIndex &index) const;
    void paint_lines(QPainter &painter, const QStyleOptionViewItem &option, const QModelIndex &index) const;

    QTableView *view_;
    bool is_ruled_ = false;
};

// For a model's Qt::FontRole: bold, or as the table is.
QVariant bold_if(bool is_bold);
// Whether a cell is a figure.
bool is_figure(const QModelIndex &index);

} // namespace client
