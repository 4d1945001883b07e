#include "sharing.h"

#include "figures.h"

#include <algorithm>
#include <numeric>

namespace client {

namespace {

Part quota_of(const Sharer &sharer, std::int64_t amount, std::int64_t weights) {
    const Wide product = static_cast<Wide>(amount) * sharer.weight;
    return {.position = sharer.position,
            .quota = static_cast<std::int64_t>(product / weights),
            .remainder = static_cast<std::int64_t>(product % weights)};
}

// Ranks by remainder, largest first, and equal ones by turn.
void rank(Sharing &sharing, const Turns &turns) {
    std::vector<std::size_t> order(sharing.parts.size());
    std::iota(order.begin(), order.end(), std::size_t{0});
    std::sort(order.begin(), order.end(), [&](std::size_t a, std::size_t b) {
        const Part &one = sharing.parts[a];
        const Part &other = sharing.parts[b];
        return one.remainder != other.remainder ? one.remainder > other.remainder
                                                : turns.before(one.position) < turns.before(other.position);
    });
    for (std::size_t place = 0; place < order.size(); ++place) {
        Part &part = sharing.parts[order[place]];
        part.rank = place;
        part.gets_one_more = static_cast<std::int64_t>(place) < sharing.left;
    }
}

} // namespace

const Part *Sharing::part_of(std::size_t position) const {
    const auto found =
        std::find_if(parts.begin(), parts.end(), [&](const Part &part) { return part.position == position; });
    return found == parts.end() ? nullptr : &*found;
}

bool Sharing::is_decided_by_turn(const Part &part) const {
    return std::any_of(parts.begin(), parts.end(), [&](const Part &other) {
        return other.remainder == part.remainder && other.gets_one_more != part.gets_one_more;
    });
}

Sharing share(std::int64_t amount, const std::vector<Sharer> &sharers, const Turns &turns) {
    Sharing sharing{.amount = amount, .weights = 0, .left = 0, .parts = {}};
    for (const Sharer &sharer : sharers) {
        sharing.weights += sharer.weight;
    }
    if (sharing.weights == 0) {
        return sharing;
    }
    sharing.left = amount;
    for (const Sharer &sharer : sharers) {
        sharing.parts.push_back(quota_of(sharer, amount, sharing.weights));
        sharing.left -= sharing.parts.back().quota;
    }
    if (sharing.left > 0) {
        rank(sharing, turns);
    }
    return sharing;
}

} // namespace client
