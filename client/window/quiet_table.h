// A table that tells screen readers of its current cell only while it has the keys: Qt's own tells of it whenever the
// cell changes, so that a reader would leave the chart at every step.
#pragma once

#include <QTableView>

namespace client {

class QuietTable : public QTableView {
    Q_OBJECT

  public:
    using QTableView::QTableView;

  protected:
    void currentChanged(const QModelIndex &current, const QModelIndex &previous) override {
        if (hasFocus()) {
            QTableView::currentChanged(current, previous);
        } else {
            QAbstractItemView::currentChanged(current, previous);
        }
    }
};

} // namespace client
