// The table of a plant's day: a row for each quarter, and a last one with their sums. A quarter without a statement has
// no figure at all, only a note that says why; a figure that is not final is marked.
#pragma once

#include "view.h"

#include <QAbstractTableModel>

#include <optional>

namespace client {

class DayModel : public QAbstractTableModel {
    Q_OBJECT

  public:
    static constexpr int sums_row = static_cast<int>(quarters_of_day);

    explicit DayModel(QObject *parent = nullptr);

    void clear(Tongue tongue);
    void show_day(const PlantDay &day, Tongue tongue);
    // Whether a column is 0 all day: it need not be seen.
    bool is_idle(int column) const;
    static int time_column() { return 0; }
    static int net_column() { return 1; }
    static int note_column();

    int rowCount(const QModelIndex &parent = {}) const override;
    int columnCount(const QModelIndex &parent = {}) const override;
    QVariant data(const QModelIndex &index, int role = Qt::DisplayRole) const override;
    QVariant headerData(int section, Qt::Orientation orientation, int role = Qt::DisplayRole) const override;

  private:
    QString quarter_text(int number, int column) const;
    QString sums_text(int column) const;
    QString note(const PlantQuarter &quarter) const;
    QString explained(const QModelIndex &index) const;
    QString told(const QModelIndex &index) const;
    bool is_open(int row) const;

    std::optional<PlantDay> day_;
    bool is_folder_open_ = false; // some file is not accounted for
    Tongue tongue_ = Tongue::english;
};

} // namespace client
