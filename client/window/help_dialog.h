// The keys, and what the terms mean.
#pragma once

#include "words.h"

#include <QDialog>

namespace client {

class HelpDialog : public QDialog {
    Q_OBJECT

  public:
    HelpDialog(Tongue tongue, QWidget *parent);
};

} // namespace client
