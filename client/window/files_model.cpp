#include "files_model.h"

#include "cell_delegate.h"
#include "look.h"

#include <algorithm>

namespace client {

void FilesModel::clear(Tongue tongue) {
    beginResetModel();
    reading_.reset();
    faulty_ = 0;
    tongue_ = tongue;
    endResetModel();
}

void FilesModel::show_files(std::shared_ptr<const Reading> reading, Tongue tongue) {
    beginResetModel();
    reading_ = std::move(reading);
    tongue_ = tongue;
    faulty_ = static_cast<int>(std::count_if(reading_->files.begin(), reading_->files.end(),
                                             [](const File &file) { return file.is_faulty(); }));
    endResetModel();
}

std::optional<Slot> FilesModel::slot_at(int row) const {
    return row >= 0 && row < rowCount() ? file_at(row).slot : std::nullopt;
}

int FilesModel::rowCount(const QModelIndex &parent) const {
    return parent.isValid() || !reading_ ? 0 : static_cast<int>(reading_->files.size());
}

int FilesModel::columnCount(const QModelIndex &parent) const {
    return parent.isValid() ? 0 : columns;
}

QString FilesModel::cell_text(const File &file, int column) const {
    switch (column) {
    case fault:
        return file.is_faulty() ? words(Word::files_at_fault, tongue_) : QString();
    case name:
        return text(file.name);
    case is:
        return words(name_of(file), tongue_);
    case whose:
        return file.slot ? text(text(*file.slot)) : QString();
    case says:
        return words(file.says, tongue_);
    default:
        return file.advice ? words(*file.advice, tongue_) : QString();
    }
}

QVariant FilesModel::data(const QModelIndex &index, int role) const {
    if (!index.isValid() || !reading_) {
        return {};
    }
    const File &file = file_at(index.row());
    switch (role) {
    case Qt::DisplayRole:
        return cell_text(file, index.column());
    case Qt::ToolTipRole:
        return tool_tip(cell_text(file, index.column()));
    case Qt::TextAlignmentRole:
        return static_cast<int>(Qt::AlignLeft | Qt::AlignVCenter);
    case Qt::FontRole:
        return bold_if(file.is_faulty() && index.column() <= name);
    default:
        return {};
    }
}

QVariant FilesModel::headerData(int section, Qt::Orientation orientation, int role) const {
    constexpr Word heads[columns] = {Word::files_fault, Word::files_name, Word::files_is,
                                     Word::files_for,   Word::files_says, Word::files_advice};
    if (orientation != Qt::Horizontal || section < 0 || section >= columns) {
        return {};
    }
    if (role == Qt::TextAlignmentRole) {
        return static_cast<int>(Qt::AlignLeft | Qt::AlignBottom);
    }
    return role == Qt::DisplayRole ? QVariant(words(heads[section], tongue_)) : QVariant();
}

} // namespace client
