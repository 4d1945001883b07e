// Writing what is shown to a file.
#pragma once

#include "shown.h"

#include <stop_token>

namespace client {

enum class Subject { day, rows, files };
enum class Format { csv };

// What is exported, and as what.
struct Export {
    Subject subject = Subject::day;
    Format format = Format::csv;
};

// An export that somebody asked for: of what, where to, and what was on the screen then.
struct Order {
    Export what;
    QString path;
    Shown shown;
};

// Whether there is something to write.
bool has_content(const Shown &shown, Export what);
// The name that is offered.
QString name_of(const Shown &shown, Export what);

// Writes what was shown, all of it or nothing, if the folder as it was read just now is still the same, and never into
// that folder. It touches the disk and takes long for a month, and is made for another thread than the window's; it
// throws nothing, and answers with a sentence for people.
Said write_if_same(const Order &order, const Outcome &outcome, const std::stop_token &stop) noexcept;

} // namespace client
