// The tongue of Qt's own dialogs and their buttons.
#pragma once

#include "words.h"

#include <QTranslator>

namespace client {

class DialogTongue {
  public:
    DialogTongue();

    // From now on, also where a dialog is open.
    void speak(Tongue tongue);

  private:
    QTranslator chinese_; // Qt's English is what it has without a translator
};

} // namespace client
