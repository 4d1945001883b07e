// One typeface for each script, by name: left alone, Qt takes Japanese forms for Chinese letters.
#pragma once

#include <QApplication>

namespace client {

inline void set_typeface() {
    QFont font = QApplication::font();
    font.setFamilies({"Noto Sans", "DejaVu Sans", "Noto Sans CJK SC", "Microsoft YaHei"});
    QApplication::setFont(font);
}

} // namespace client
