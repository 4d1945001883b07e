#include "dialog_tongue.h"

#include <QCoreApplication>
#include <QLibraryInfo>

namespace client {

// Loaded once, so that switching needs no file.
DialogTongue::DialogTongue() {
    const bool is_loaded = chinese_.load("qtbase_zh_CN", QLibraryInfo::path(QLibraryInfo::TranslationsPath));
    Q_UNUSED(is_loaded); // without it the dialogs speak English
}

void DialogTongue::speak(Tongue tongue) {
    QCoreApplication::removeTranslator(&chinese_);
    if (tongue == Tongue::chinese && !chinese_.isEmpty()) {
        QCoreApplication::installTranslator(&chinese_);
    }
}

} // namespace client
