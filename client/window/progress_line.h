// How far a reading is, and the button that stops it.
#pragma once

#include "words.h"

#include <QWidget>

class QProgressBar;
class QPushButton;

namespace client {

class ProgressLine : public QWidget {
    Q_OBJECT

  public:
    explicit ProgressLine(QWidget *parent = nullptr);

    void clear(Tongue tongue);
    // So many files are read, of so many; of 0 where nobody knows yet.
    void tell(int read, int of, Tongue tongue);

  signals:
    void stop_asked();

  private:
    QProgressBar *bar_ = nullptr;
    QPushButton *stop_ = nullptr;
};

} // namespace client
