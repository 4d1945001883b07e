// What stands in the place of all screens where there is no figure to show: a sentence, and what can be done.
#pragma once

#include "shown.h"

#include <QWidget>

class QLabel;
class QPushButton;

namespace client {

class MessagePage : public QWidget {
    Q_OBJECT

  public:
    explicit MessagePage(QWidget *parent = nullptr);

    void say(const Said &said, bool offers_example, Tongue tongue);

  signals:
    void open_asked();
    void example_asked();

  private:
    QLabel *sentence_ = nullptr;
    QPushButton *open_ = nullptr;
    QPushButton *example_ = nullptr;
};

} // namespace client
