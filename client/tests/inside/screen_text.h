// Everything that a window says: texts of all widgets, every cell of every table, tool tips, and what a screen reader
// would hear; of hidden widgets too unless only what shows is asked for.
#pragma once

#include <QStringList>
#include <QWidget>

QStringList texts_of(const QWidget &window, bool only_showing = false);

// All of them on lines of their own, to be searched or compared.
QString all_text(const QWidget &window, bool only_showing = false);
