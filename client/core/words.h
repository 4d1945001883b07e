// All sentences of the client, in both tongues. They stand in the tables of words/ and nowhere else; a Word is a line
// there, so a sentence that is not there does not compile.
#pragma once

#include "words_table.h" // made from words/ by tools/words: enum class Word

#include <memory>
#include <string>
#include <string_view>
#include <vector>

namespace client {

enum class Tongue { english, chinese };

struct Said;

// What fills a hole of a sentence: plain text, the same in both tongues; a name in each; or words again.
class Hole {
  public:
    Hole(std::string text) : english_(text), chinese_(std::move(text)) {}
    Hole(const char *text) : Hole(std::string(text)) {}
    Hole(std::string english, std::string chinese) : english_(std::move(english)), chinese_(std::move(chinese)) {}
    Hole(Said said);

    std::string in(Tongue tongue) const;

  private:
    std::string english_, chinese_;
    std::shared_ptr<const Said> said_;
};

// A sentence with its holes filled, in no tongue yet: the same value is shown in both.
struct Said {
    Word word;
    std::vector<Hole> holes;

    Said(Word of, std::vector<Hole> filled = {}) : word(of), holes(std::move(filled)) {}
    std::string in(Tongue tongue) const;
};

// The line as it stands in its table, holes open: {0}, {1} and so on.
std::string_view raw(Word word, Tongue tongue);
std::string_view key(Word word);

// "1 file", "3 files": the number stands in the hole behind the others.
Said counted(std::size_t number, Word one, Word several, std::vector<Hole> holes = {});

// Phrases beside one another: "a · b". There is at least one.
Said beside(const std::vector<Said> &all);

inline std::string say(Word word, Tongue tongue) {
    return Said(word).in(tongue);
}

} // namespace client
