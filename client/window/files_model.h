// The list of a reading's files, those at fault first: the order is the reading's.
#pragma once

#include "shown.h"

#include <QAbstractTableModel>

namespace client {

class FilesModel : public QAbstractTableModel {
    Q_OBJECT

  public:
    enum Column { fault, name, is, whose, says, advice, columns };

    using QAbstractTableModel::QAbstractTableModel;

    void clear(Tongue tongue);
    void show_files(std::shared_ptr<const Reading> reading, Tongue tongue);

    // So many files are at fault: the first rows.
    int faulty() const { return faulty_; }
    std::optional<Slot> slot_at(int row) const;

    int rowCount(const QModelIndex &parent = {}) const override;
    int columnCount(const QModelIndex &parent = {}) const override;
    QVariant data(const QModelIndex &index, int role = Qt::DisplayRole) const override;
    QVariant headerData(int section, Qt::Orientation orientation, int role = Qt::DisplayRole) const override;

  private:
    const File &file_at(int row) const { return reading_->files[static_cast<std::size_t>(row)]; }
    QString cell_text(const File &file, int column) const;

    std::shared_ptr<const Reading> reading_;
    int faulty_ = 0;
    Tongue tongue_ = Tongue::english;
};

} // namespace client
