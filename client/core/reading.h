// A reading: everything that lies in a folder at one moment, and the statements made from it.
//
// A screen is a function of one reading and of what a person has chosen. A reading never changes; a change in the
// folder makes a new one, and nothing passes from one to the next.
#pragma once

#include "engine.h"
#include "folder.h"
#include "names.h"
#include "words.h"

#include <array>
#include <chrono>
#include <filesystem>
#include <functional>
#include <map>
#include <memory>
#include <optional>
#include <stop_token>
#include <string>
#include <variant>
#include <vector>

namespace client {

// What a file is, by its content.
enum class Form {
    interval,   // PH, or PG, which states its terms
    correction, // PK
    statement,  // PS, or PT, the statement of a PG: never used for a figure
    coming,     // PU, PW: forms that are announced, and that this version does not know
    names,      // plants.csv
    exported,   // a CSV that this program wrote
    text,       // these four are known to be none of ours (known.h)
    pdf,
    picture,
    archive,
    empty, // no byte: never taken for "no correction"
    unknown,
    unread, // it could not be read, or is no plain file
};

// Whether something is wrong with a file.
enum class Fault {
    none,        // it counts, is an equal copy, is ours, or is known to be something else
    blemish,     // it is known what it is, and a part of it is of no use: lines of plants.csv
    unaccounted, // it may be a correction of any quarter: while there is one, no figure of the folder is final
};

// A file as it was read.
struct File {
    std::string name; // within the folder, as it is shown: what does not print is escaped
    std::string path; // within the folder, byte by byte: for who opens or watches it
    Form form = Form::unknown;
    std::optional<Slot> slot;           // where its head names a day and a quarter within their ranges
    Bytes bytes;                        // at most most_bytes of it
    bool whole = false;                 // read to its end, and it did not change meanwhile
    bool steady = false;                // it did not change while it was read
    bool fresh = false;                 // written less than arriving_for before it was read
    Stamp stamp;                        // as it was when it was read, if it was
    std::optional<Obstacle> obstacle;   // why it was not read
    std::optional<std::size_t> same_as; // the place in Reading::files of the file that it is an equal copy of
    // For the list of files: what is to be said of it, what to do about it, and whether it is at fault. Whoever knows
    // nothing of a file leaves it unaccounted for.
    Said says = Word::file_unknown;
    std::optional<Said> advice = Word::advice_unknown;
    Fault fault = Fault::unaccounted;

    bool is_faulty() const { return fault != Fault::none; }
};

// So many bytes of a file are read: one more than the longest form has, a statement of 256 rows. An interval file or a
// correction that is cut here is still too long, and is refused as the whole of it would be.
inline constexpr std::size_t most_bytes = pt_form.length(WHEATRUDDER_MOST_ROWS) + 1;
// And so many of plants.csv.
inline constexpr std::size_t most_name_bytes = 256 * 1024;
// A file that was written less than this ago and is refused may still be arriving.
inline constexpr std::chrono::milliseconds arriving_for{2'000};

// The state of a quarter hour, in the order in which they are looked for.
enum class State { missing, two_intervals, two_corrections, arriving, refused, settled, corrected };

// What the engine refused: its number and place, the file at fault, and the id that stands at that place, if one can be
// read.
struct Refused {
    Refusal refusal;
    std::size_t file = 0; // its place in Reading::files
    std::optional<RowId> id;
};

// What is known of one quarter hour.
struct QuarterRead {
    State state = State::missing;
    // Places in Reading::files of the files for this quarter, equal copies too; where there is a statement, the first
    // is the one that was used.
    std::vector<std::size_t> intervals;
    std::vector<std::size_t> corrections;
    std::vector<std::size_t> named;     // files at fault whose names say that they are for this quarter
    std::optional<Refused> refused;     // where the state is refused, and where it is arriving because of a refusal
    std::optional<Statement> statement; // settled and corrected, and nowhere else
    std::optional<Statement> before;    // corrected: the interval file settled without its correction, at this reading
};

using DayRead = std::array<QuarterRead, quarters_of_day>;

struct Reading {
    std::filesystem::path folder;
    std::chrono::system_clock::time_point taken;
    std::vector<std::filesystem::path> subfolders; // those that could be listed, for who watches them
    // Those that are not accounted for first, unread ones before others, then those with a blemish, then those of a
    // quarter by day and quarter, each interval file before its correction, then copies, statements and names, and what
    // is something else last.
    std::vector<File> files;
    std::map<Day, DayRead> days;       // those that a file names, by its head or its name
    std::vector<std::size_t> outdated; // whole statements of a quarter that has another statement now, by slot
    Names names;
    bool arriving = false; // some file has to be looked at again once it is no longer fresh
    bool restless = false; // files came or went all the while: it may lack one that is there

    const QuarterRead &at(Slot slot) const; // missing where no file names its day
    // The two files of a quarter that has a statement, as the engine was given them; the correction is empty where
    // there is none. Both are empty where there is no statement.
    View interval(const QuarterRead &quarter) const;
    View correction(const QuarterRead &quarter) const;
    std::size_t count(Form form) const;
    // So many files, the first ones, are not accounted for.
    std::size_t unaccounted() const;
    // The day to show first: the one with the most settled quarters, the latest of several; none where no file names a
    // day.
    std::optional<Day> first_day() const;
};

// There is no reading: the folder cannot be read, and why; or somebody stopped it.
struct Gone {
    Said why;
};
struct Stopped {};

using Outcome = std::variant<std::shared_ptr<const Reading>, Gone, Stopped>;

// How many files are read, of how many.
using Progress = std::function<void(std::size_t read, std::size_t of)>;

// Reads a folder and its direct subfolders and settles every quarter of which there are files. It throws nothing:
// whatever goes wrong with the folder as a whole is Gone. Asked to stop, it answers after the file at hand.
Outcome read_folder(const std::filesystem::path &folder, std::stop_token stop = {}, const Progress &progress = {});

// Whether what lies in the folder now is not what the reading has: names, sizes and times of all files, and the bytes
// of those of one day. This is the glance that is taken every two seconds, for folders that send no word of a change.
bool has_changed(const Reading &reading, std::optional<Day> day);

// Whether two readings come from the same files, byte by byte.
bool same_files(const Reading &one, const Reading &other);

// The sentence of a quarter without a statement: missing, two files, arriving, refused with its words. Empty where it
// is settled.
std::optional<Said> hindrance(const Reading &reading, const QuarterRead &quarter);
// Which files are not accounted for, and that no figure is final. Empty where all are.
std::optional<Said> reservation(const Reading &reading);
// The same for one quarter: first the files that are named for it.
std::optional<Said> reservation(const Reading &reading, const QuarterRead &quarter);
// A refusal in plain words with its number, its entry and the id found there; and what to do about it.
Said refusal_words(const Refused &refused);
Said refusal_advice(const Refusal &refusal);

// What a state and a form are called in lists; of a file also whether it states its terms.
Word name_of(State state);
Word name_of(Form form);
Word name_of(const File &file);

} // namespace client
