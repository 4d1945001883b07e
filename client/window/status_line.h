// When everything was worked out, from how many files, and how many of them are at fault.
#pragma once

#include "screen.h"

class QLabel;
class QPushButton;

namespace client {

class StatusLine : public QWidget, public Screen {
    Q_OBJECT

  public:
    explicit StatusLine(QWidget *parent = nullptr);

    QWidget &as_widget() override { return *this; }

  signals:
    void files_asked();

  private:
    void forget(Tongue tongue) override;
    void show_reading(const Shown &shown) override;

    QPushButton *faults_ = nullptr;
    QLabel *as_of_ = nullptr;
};

} // namespace client
