// The figures of a line as people look for them: the net amount, then every other as the core's table has them.
#pragma once

#include "fields.h"

#include <vector>

namespace client {

inline const std::vector<Figure> &net_first() {
    static const std::vector<Figure> all = [] {
        std::vector<Figure> made{Figure::net};
        for (const Field &each : fields()) {
            if (each.figure != Figure::net) {
                made.push_back(each.figure);
            }
        }
        return made;
    }();
    return all;
}

} // namespace client
