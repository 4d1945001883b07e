// The one rule by which a whole amount is shared, with everything that a person needs to follow it: quotas, remainders
// and the order in which what is left over goes out.
#pragma once

#include "calendar.h"

#include <cstddef>
#include <cstdint>
#include <vector>

namespace client {

// The turns of all rows of a file among equal remainders: they begin at the position that is the quarter modulo the
// number of rows, go on in the file's order, and after the last row comes the first.
class Turns {
  public:
    Turns() = default;
    // A file without rows has no turns.
    Turns(Quarter quarter, std::size_t rows) : rows_(rows), first_(rows == 0 ? 0 : quarter.number % rows) {}

    // The position of the row that goes first, where there is a row.
    std::size_t first() const { return first_; }
    // How many rows go before the one at this position.
    std::size_t before(std::size_t position) const {
        return position >= first_ ? position - first_ : position + rows_ - first_;
    }

  private:
    std::size_t rows_ = 0;
    std::size_t first_ = 0;
};

// One who takes part, by its position in the file.
struct Sharer {
    std::size_t position = 0;
    std::int64_t weight = 0; // above 0
};

struct Part {
    std::size_t position = 0;
    std::int64_t quota = 0;     // amount × weight ÷ all weights, cut
    std::int64_t remainder = 0; // what the cut leaves, in parts of all weights
    std::size_t rank = 0;       // 0 for who is first to get one more
    bool gets_one_more = false;

    std::int64_t share() const { return quota + (gets_one_more ? 1 : 0); }
};

struct Sharing {
    std::int64_t amount = 0;
    std::int64_t weights = 0; // of all who take part
    std::int64_t left = 0;    // what the quotas leave over
    std::vector<Part> parts;  // in the sharers' order

    const Part *part_of(std::size_t position) const;
    // Whether the turn alone decided that this part, and not one of the same remainder, got one more, or the reverse.
    bool is_decided_by_turn(const Part &part) const;
};

// Shares an amount, which is not below 0. Without sharers nobody gets anything.
Sharing share(std::int64_t amount, const std::vector<Sharer> &sharers, const Turns &turns);

} // namespace client
