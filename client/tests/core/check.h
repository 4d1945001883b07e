// The tests' one tool: a fact that has to hold. A test program counts what it has checked, says the first that fails
// and where, and ends with 1.
#pragma once

#include <cstdlib>
#include <iostream>
#include <source_location>
#include <sstream>

namespace check {

inline std::size_t made = 0;

inline void fail(const std::string &what, std::source_location at) {
    std::cerr << at.file_name() << ":" << at.line() << ": " << what << std::endl;
    std::exit(1);
}

inline void holds(bool fact, const std::string &what, std::source_location at = std::source_location::current()) {
    ++made;
    if (!fact) {
        fail(what, at);
    }
}

template <class Is, class Due>
void equal(const Is &is, const Due &due, const std::string &of = "",
           std::source_location at = std::source_location::current()) {
    ++made;
    if (!(is == due)) {
        std::ostringstream text;
        text << of << (of.empty() ? "" : ": ") << "is\n  " << is << "\nand not\n  " << due;
        fail(text.str(), at);
    }
}

// What a test program ends with.
inline int passed(const std::string &name) {
    std::cout << name << ": " << made << " checks" << std::endl;
    return made > 0 ? 0 : 1;
}

} // namespace check
