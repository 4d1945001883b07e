#include "rules.h"

namespace client {

bool are_allowed(const Terms &terms) {
    const auto &[lowest_1, highest_1, lowest_2, highest_2] = terms.limits;
    return terms.baseline >= 41 && terms.baseline <= 50 && lowest_1 >= Li{1} && lowest_1 < highest_1 &&
           highest_1 <= lowest_2 && lowest_2 < highest_2 && highest_2 <= Li{1'000};
}

Rules rules_of(View accepted_interval) {
    const Head head = head_of(accepted_interval);
    return {
        .form = head.form,
        .tariff = head.tariff,
        .need = head.need,
        .terms = head.terms.value_or(issued_terms),
        .average = std::nullopt,
        .tier_2 = 40,
        .band_ends = {60, 70},
        .factors = {1, 2, 3},
        .thermal_cap = {1, 4},
        .renewable_cap = {1, 2},
        .penalty = 2,
    };
}

Terms terms_of(const Statement &statement) {
    return statement.terms().value_or(issued_terms);
}

} // namespace client
