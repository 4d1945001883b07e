// Names of plants, from a file plants.csv in the folder: id, Chinese name, English name. They label rows, and decide
// nothing.
#pragma once

#include "engine.h"
#include "words.h"

#include <map>
#include <string>
#include <string_view>

namespace client {

struct Name {
    std::string chinese, english;
    friend bool operator==(const Name &, const Name &) = default;
};

class Names {
  public:
    Names() = default;
    // Of the bytes of plants.csv: UTF-8, cells as RFC 4180 has them, one line for each row. A line that is no id with
    // two names is passed over, and so are two lines that name one row differently; a name has at most 64 letters, and
    // one of the two may be empty. Bytes that are no UTF-8 and letters that do not print are left out. The first line
    // may be a head.
    explicit Names(View bytes);

    // Empty where the row has no name; the other tongue's where it has none in this one.
    std::string of(RowId id, Tongue tongue) const;
    // Lines that were passed over.
    std::size_t passed_over() const { return passed_over_; }
    // Rows that have a name.
    std::size_t size() const { return names_.size(); }

  private:
    std::map<RowId, Name> names_;
    std::size_t passed_over_ = 0;
};

// A text that shows on one line: what is no UTF-8, no letter that prints, or a backslash is escaped, so that two file
// names never look the same ("a\xff", "b\u{202e}").
std::string shown(std::string_view bytes);

} // namespace client
