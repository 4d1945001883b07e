// The day's book without a window: wheatrudder-print FOLDER [DAY]
//
// All rows of the day as CSV on standard output; whether it may be booked, and if not why, on standard error, in
// Chinese where the system speaks it. Without DAY, such as 2026-10-31, it is the day that the window would show first.
// Exit status: 0 ready to book, 1 not ready, 2 could not run.
#include "csv.h"
#include "view.h"

#include <cstdlib>
#include <iostream>

using namespace client;

namespace {

enum Status { ready = 0, not_ready = 1, could_not_run = 2 };

Tongue tongue_of_system() {
    for (const char *name : {"LC_ALL", "LC_MESSAGES", "LANG"}) {
        const char *value = std::getenv(name);
        if (value != nullptr && *value != '\0') {
            return std::string_view(value).starts_with("zh") ? Tongue::chinese : Tongue::english;
        }
    }
    return Tongue::english;
}

void say(const Said &said) {
    std::cerr << said.in(tongue_of_system()) << std::endl;
}

Status print(const Reading &reading, std::optional<Day> asked) {
    const std::optional<Day> day = asked ? asked : reading.first_day();
    for (const std::size_t place : reading.outdated) {
        const File &file = reading.files.at(place);
        say({Word::print_file, {file.name, file.says}});
    }
    if (!day) {
        say(Word::no_files);
        if (const auto open = reservation(reading)) {
            say(*open);
        }
        return not_ready;
    }
    std::cout << rows_as_csv(reading, *day) << std::flush;
    if (!std::cout) {
        say(Word::print_failed);
        return could_not_run;
    }
    say({Word::print_day, {date(*day), readiness(reading, *day)}});
    return arrived(reading, *day).is_ready() ? ready : not_ready;
}

} // namespace

int main(int count, char **words) {
    const std::optional<Day> day = count == 3 ? day_of(words[2]) : std::nullopt;
    if (count < 2 || count > 3 || (count == 3 && !day)) {
        std::cerr << "wheatrudder-print FOLDER [DAY]      DAY such as 2026-10-31" << std::endl;
        return could_not_run;
    }
    const Outcome outcome = read_folder(words[1]);
    if (const auto *gone = std::get_if<Gone>(&outcome)) {
        say(gone->why);
        return could_not_run;
    }
    try {
        return print(*std::get<std::shared_ptr<const Reading>>(outcome), day);
    } catch (...) {
        say(Word::gone_fault);
        return could_not_run;
    }
}
