// A small table that is as tall as its rows, inside a page that scrolls: sentences wrap, figures stand at the right, a
// result stands out.
#pragma once

#include "filling_table.h"

#include <QAbstractTableModel>
#include <QStringList>

#include <vector>

namespace client {

// One cell: its text, and how it stands.
struct Cell {
    QString text;
    bool is_figure = false; // at the right, never wrapped
    bool is_void = false;   // no longer valid
    bool is_bold = false;
};

struct TextRow {
    std::vector<Cell> cells;
    bool is_result = false; // a line above it, and bold
};

// Rows of texts, and nothing else.
class TextTable : public QAbstractTableModel {
    Q_OBJECT

  public:
    using QAbstractTableModel::QAbstractTableModel;

    void fill(QStringList heads, std::vector<TextRow> rows);

    int rowCount(const QModelIndex &parent = {}) const override;
    int columnCount(const QModelIndex &parent = {}) const override;
    QVariant data(const QModelIndex &index, int role = Qt::DisplayRole) const override;
    QVariant headerData(int section, Qt::Orientation orientation, int role = Qt::DisplayRole) const override;

  private:
    QStringList heads_;
    std::vector<TextRow> rows_;
};

class FittedTable : public FillingTable {
    Q_OBJECT

  public:
    // One column wraps and takes the room that the others leave.
    FittedTable(int wrapping_column, QWidget *parent = nullptr);

    void fill(QStringList heads, std::vector<TextRow> rows);
    void clear();

    QSize sizeHint() const override;
    QSize minimumSizeHint() const override;

  signals:
    // The keys have gone to a cell: the page around it brings it into view.
    void entered_cell(QRect place);

  protected:
    void currentChanged(const QModelIndex &current, const QModelIndex &previous) override;
    void fit_rows() override;
    // The page scrolls, never the table in it.
    void wheelEvent(QWheelEvent *event) override;

  private:
    TextTable *content_;
};

} // namespace client
