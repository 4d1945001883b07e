#include "explain.h"

#include "phrases.h"
#include "steps.h"

#include <algorithm>

namespace client {

std::variant<Explanation, Disagreement> explain(const Statement &statement, const std::vector<Row> &rows,
                                                const Rules &rules, RowId id, const Namer &name_of) {
    const auto worked = work_out(statement, rows, rules);
    if (const Said *failed = std::get_if<Said>(&worked)) {
        return Disagreement{*failed};
    }
    const Workings &quarter = std::get<Workings>(worked);
    const auto found = std::find_if(rows.begin(), rows.end(), [&](const Row &row) { return row.id == id; });
    if (found == rows.end()) {
        return Disagreement{{Word::check_absent, {number(id)}}};
    }
    const auto position = static_cast<std::size_t>(found - rows.begin());
    const Line &line = quarter.lines[position];
    Steps steps(quarter, position, name_of);
    steps.tell();
    return Explanation{answer_of(line, statement.slot(), called(id, name_of)), question_of(line), steps.take()};
}

Said answer_of(const Line &line, Slot slot, const Said &name) {
    const Fen net = line.net();
    if (net == Fen{0}) {
        return {Word::zero, {name, text(slot)}};
    }
    if (net > Fen{0}) {
        return {Word::gets, {name, text(slot), text(net)}};
    }
    return {line.penalty > Fen{0} ? Word::owes : Word::pays, {name, text(slot), text(-net)}};
}

Word question_of(const Line &line) {
    const Fen net = line.net();
    return net == Fen{0} ? Word::why_zero : net > Fen{0} ? Word::why_gets : Word::why_pays;
}

std::string as_text(const Explanation &explanation, Tongue tongue) {
    std::string all = explanation.answer.in(tongue) + "\n\n" + say(explanation.question, tongue) + "\n";
    std::size_t number_of_step = 0;
    for (const Step &step : explanation.steps) {
        const std::string place = std::to_string(++number_of_step);
        const Said line = step.yuan ? Said(Word::text_step_amount, {place, step.words, *step.yuan})
                                    : Said(Word::text_step, {place, step.words});
        all += line.in(tongue) + "\n";
    }
    return all;
}

} // namespace client
