// The steps of an explanation, part by part. They tell workings that have been checked, and decide no figure.
#pragma once

#include "explain.h"
#include "workings.h"

namespace client {

// The steps of one row, as they are told.
class Steps {
  public:
    Steps(const Workings &quarter, std::size_t position, const Namer &name_of)
        : quarter_(quarter), position_(position), name_of_(name_of) {}

    // Adds every part that the row has, and the result.
    void tell();
    std::vector<Step> take() { return std::move(all_); }

  private:
    // Terms that are not those of the rules as issued.
    void terms();
    // The thermal average, where it rules: why, what it is made of, what it is for the row.
    void average();
    // What the row is, and what part it has in the quarter.
    void role();
    // A payer's share: weight, cap, rounds and leftover fen.
    void share();
    void weight();
    void cap();
    void rounds_of_others();
    void own_part();
    void others(const Round &round, std::size_t number);
    void others(std::size_t from, std::size_t to);
    // A receiver's compensation and its cut.
    void compensation();
    void paid_tier(std::size_t tier);
    void cut();
    // What a reduced unit owes for what it was called for, and what of it is returned.
    void penalty();
    void missing_tier(std::size_t tier);
    void returned();
    void result();
    void result_with_penalty();

    // How a part of a sharing becomes whole fen, where it is none: what is left over, and whose turn it is.
    void leftover(const Sharing &sharing, Word gets_one_more);

    const Rules &rules() const { return quarter_.rules; }
    const Row &row() const { return quarter_.rows[position_]; }
    const Line &line() const { return quarter_.lines[position_]; }
    Calls calls() const { return {line().called, quarter_.prices}; }
    Role role_here() const { return role_of(row(), rules()); }
    // One of two sentences with the same holes, by what rules: the baseline or the thermal average.
    Word ruled(Word by_baseline, Word by_average) const { return rules().average ? by_average : by_baseline; }
    bool is_called() const { return line().called[0] > Kwh{0} || line().called[1] > Kwh{0}; }
    // What it was called for in each tier, and where the tiers begin and end.
    std::vector<Hole> calls_by_tier() const;
    // In how many rounds others reached their caps before the row did, if it did.
    std::size_t rounds_before() const { return line().closing > 0 ? line().closing - 1 : quarter_.rounds.size(); }

    void say(Word word, std::vector<Hole> holes = {});
    // With the amount that the step comes to.
    void say(Word word, std::vector<Hole> holes, std::string yuan);
    void end(Word word, std::vector<Hole> holes, Fen amount);

    const Workings &quarter_;
    std::size_t position_;
    const Namer &name_of_;
    std::vector<Step> all_;
};

} // namespace client
