// A quarter worked out once more as a whole, from the rows that count and the calls and prices of its statement, and
// held against every other figure of that statement.
#pragma once

#include "duties.h"
#include "sharing.h"
#include "words.h"

#include <variant>
#include <vector>

namespace client {

// A round in which somebody reached a cap.
struct Round {
    // What had to be shared when it began, and by which weight.
    Fen rest;
    Kwh weight;
    std::vector<std::size_t> closed; // positions of those who reached their caps, in the file's order
    Fen caps;                        // what they pay together
    // What remains for those who are still below theirs, and what these weigh.
    Fen left;
    Kwh left_weight;
};

struct Workings {
    std::vector<Line> lines; // the statement's
    std::vector<Row> rows;
    std::array<Li, 2> prices;
    Rules rules; // with the thermal average, where it rules
    Turns turns;
    Fen total;
    Kwh weight; // of all payers
    std::vector<Round> rounds;
    // What was left to share after the last round, and the weight of those who are below their caps.
    Fen rest;
    Kwh open_weight;
    Sharing payments; // among these
    Fen shortfall;    // the rest, where nobody is below its cap
    Fen penalties;
    Fen filled; // what the penalties fill of the shortfall
    Sharing cuts;
    Sharing returns;
};

// The workings, or the first check that the statement does not pass. Any bytes may stand in the statement.
std::variant<Workings, Said> work_out(const Statement &statement, const std::vector<Row> &rows, const Rules &rules);

} // namespace client
