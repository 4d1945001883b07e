// What a file's name says it is. Names decide nothing; but a file that is not what its name says is at fault.
#pragma once

#include "calendar.h"

#include <optional>
#include <string_view>
#include <vector>

namespace client {

// As we write names: "2026-10-31-q09.interval", in capitals or not.
enum class NamedAs { interval, correction, statement };

struct Naming {
    std::optional<NamedAs> as;
    std::vector<Slot> slots; // every day and quarter that stands in it
};

// Of a path, whose last part is the name.
Naming naming_of(std::string_view path);

} // namespace client
