// The table of all rows of a day: one figure of each row in each quarter, looked up in the statements as it is painted.
// A last column has what each row's quarters come to, a last row what all rows of a quarter come to: the sums of
// figures that have one, added up once.
#pragma once

#include "shown.h"
#include "view.h"

#include <QAbstractTableModel>

#include <optional>
#include <vector>

namespace client {

class RowsModel : public QAbstractTableModel {
    Q_OBJECT

  public:
    static constexpr int sums_column = static_cast<int>(quarters_of_day);

    using QAbstractTableModel::QAbstractTableModel;

    void clear(Tongue tongue);
    void show_rows(const Shown &shown, Figure figure);
    void set_figure(Figure figure);

    // The row's id and the column's quarter; none for the sums.
    std::optional<RowId> id_at(int row) const;
    std::optional<Quarter> quarter_of(int column) const;
    std::optional<int> row_of(RowId id) const;
    // The row of sums, below all others.
    int sums_row() const { return static_cast<int>(plants_.size()); }
    bool has_sums() const { return field(figure_).has_sum; }
    // The longest texts that a cell of this column may have.
    std::vector<QString> longest(int column) const;

    int rowCount(const QModelIndex &parent = {}) const override;
    int columnCount(const QModelIndex &parent = {}) const override;
    QVariant data(const QModelIndex &index, int role = Qt::DisplayRole) const override;
    QVariant headerData(int section, Qt::Orientation orientation, int role = Qt::DisplayRole) const override;

  private:
    // What some figures come to, and how many they are.
    struct Sum {
        std::int64_t count = 0;
        std::size_t parts = 0;

        void add(std::int64_t figure);
    };

    void add_up();
    const QuarterRead &quarter_at(int column) const;
    // Why a column has no figure.
    std::optional<Said> hindrance_of(int column) const;
    std::optional<std::int64_t> count_at(const QModelIndex &index) const;
    std::optional<std::int64_t> sum_at(const QModelIndex &index) const;
    QString cell_text(const QModelIndex &index) const;
    QString told(const QModelIndex &index) const;
    std::string column_text(const QModelIndex &index) const;
    QString row_text(int row) const;
    QString sums_head() const;
    Said said_of(Quarter quarter) const;
    QVariant column_head(int column, int role) const;

    std::optional<Shown> shown_;
    std::vector<Plant> plants_;
    std::vector<Sum> of_rows_;
    std::array<Sum, quarters_of_day> of_quarters_;
    Sum of_all_;
    std::int64_t lowest_ = 0, highest_ = 0; // of all figures
    Figure figure_ = Figure::net;
    Tongue tongue_ = Tongue::english;
};

} // namespace client
