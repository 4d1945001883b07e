// Why a row owes, gets or has nothing: step by step to the statement's own fen.
//
// The statement counts. Every step is worked out here once more from the rows that count, in whole numbers, and held
// against the statement: whether the thermal average rules, weights, caps, compensations and penalties of all rows,
// every round, every quota and leftover fen. Where one fen differs there are no steps, only the check that failed.
// Calls and prices are taken from the statement, since they follow from bids, which are not shown; but whether a tier
// has a price is checked.
#pragma once

#include "named.h"
#include "rules.h"
#include "words.h"

#include <optional>
#include <string>
#include <variant>
#include <vector>

namespace client {

struct Step {
    Said words;
    std::optional<std::string> yuan; // the amount that the step comes to, as on a bill
    bool is_result = false;          // the last one: what the row pays, gets or is left with
};

struct Explanation {
    Said answer;   // the amount in one sentence: "Row 753, 2026-10-31 02:15–02:30: pays 94.23 yuan"
    Word question; // Why do I owe this? Why do I get this? Why nothing?
    std::vector<Step> steps;
};

// The check that the statement does not pass, in words.
struct Disagreement {
    Said check;
};

// `rows` are the rows that count, one for each line and in the same order; `rules` are those of the same interval file.
// Steps call this row and its neighbours by their names. A check that failed has ids alone: it is to be reported, and
// names are the folder's.
std::variant<Explanation, Disagreement> explain(const Statement &statement, const std::vector<Row> &rows,
                                                const Rules &rules, RowId id, const Namer &name_of = {});

// The amount in one sentence, which needs no explanation: it is the statement's.
Said answer_of(const Line &line, Slot slot, const Said &name);
Word question_of(const Line &line);

// Why a row's figures are others than before the correction: which readings or statuses were replaced, its own first;
// where none of its own was, what the change of the others did to prices, total, weights and rate. The last sentence is
// what to book: the new net amount, or that it is the same.
struct Settlement {
    const Statement &statement;
    const std::vector<Row> &rows;
};
std::vector<Said> reasons(const Settlement &before, const Settlement &now, RowId id, const Namer &name_of = {});

// The explanation as text, for the clipboard.
std::string as_text(const Explanation &explanation, Tongue tongue);

} // namespace client
